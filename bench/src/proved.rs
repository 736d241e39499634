//! The proved planner behind the C functions of its two archives, and an earlier
//! one behind those of its own, which `run` has given other names.

use crate::side::Side;
use crate::task::{Carrier, PlanTask, RouteTask, Tables, Told};

/// A planner as its two archives have it.
pub struct Archives {
    name: &'static str,
    earlier: bool,
    plan: fn(&PlanTask, &mut Tables) -> Told,
    best_route: fn(&RouteTask, &mut [u8], &mut [u8]) -> usize,
}

/// The planner by a C function. The number is taken from `told`, not from the value
/// returned.
#[cfg(any(feature = "proved", feature = "before"))]
macro_rules! plan_by {
    ($function:ident) => {{
        unsafe extern "C" {
            fn $function(
                hall: *const u8,
                hall_len: usize,
                width: usize,
                height: usize,
                carriers: *const Carrier,
                carriers_count: usize,
                h: usize,
                n: usize,
                columns: *mut u16,
                columns_len: usize,
                plans: *mut u8,
                plans_len: usize,
                layers: *mut u8,
                layers_len: usize,
                output: *mut u8,
                output_len: usize,
                told: *mut usize,
                told_len: usize,
            ) -> usize;
        }
        |task, tables| {
            let mut told = Told::default();
            // SAFETY: each pointer goes with the length of its slice.
            unsafe {
                $function(
                    task.hall.as_ptr(),
                    task.hall.len(),
                    task.width,
                    task.height,
                    task.carriers.as_ptr(),
                    task.carriers.len(),
                    task.h,
                    task.n,
                    tables.columns.as_mut_ptr(),
                    tables.columns.len(),
                    tables.plans.as_mut_ptr(),
                    tables.plans.len(),
                    tables.layers.as_mut_ptr(),
                    tables.layers.len(),
                    tables.output.as_mut_ptr(),
                    tables.output.len(),
                    told.as_mut_ptr(),
                    told.len(),
                );
            }
            told
        }
    }};
}

/// The best route by a C function.
macro_rules! best_route_by {
    ($function:ident) => {{
        unsafe extern "C" {
            fn $function(
                hall: *const u8,
                hall_len: usize,
                width: usize,
                height: usize,
                start: usize,
                goal: usize,
                h: usize,
                columns: *const u16,
                columns_len: usize,
                capacity: usize,
                node: usize,
                carrier: usize,
                layers: *mut u8,
                layers_len: usize,
                stretch: *mut u8,
                stretch_len: usize,
            ) -> usize;
        }
        // SAFETY: each pointer goes with the length of its slice.
        |task, layers, stretch| unsafe {
            $function(
                task.hall.as_ptr(),
                task.hall.len(),
                task.width,
                task.height,
                task.start,
                task.goal,
                task.h,
                task.columns.as_ptr(),
                task.columns.len(),
                task.capacity,
                task.node,
                task.carrier,
                layers.as_mut_ptr(),
                layers.len(),
                stretch.as_mut_ptr(),
                stretch.len(),
            )
        }
    }};
}

#[cfg(feature = "proved-route")]
pub const PROVED: Archives = Archives {
    name: "proved",
    earlier: false,
    #[cfg(feature = "proved")]
    plan: plan_by!(adfulmise_plan),
    #[cfg(not(feature = "proved"))]
    plan: |_, _| unreachable!("without the planner's archive no plans are measured"),
    best_route: best_route_by!(adfulmise_best_route),
};

#[cfg(feature = "before")]
pub const BEFORE: Archives = Archives {
    name: "before",
    earlier: true,
    plan: plan_by!(before_plan),
    best_route: best_route_by!(before_best_route),
};

impl Side for Archives {
    fn name(&self) -> &'static str {
        self.name
    }

    fn earlier(&self) -> bool {
        self.earlier
    }

    fn best_route(&self, task: &RouteTask, layers: &mut [u8], stretch: &mut [u8]) -> usize {
        (self.best_route)(task, layers, stretch)
    }

    fn plan(&self, task: &PlanTask, tables: &mut Tables) -> Told {
        (self.plan)(task, tables)
    }
}
