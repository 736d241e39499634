/* What adfulmise.h and the server take from C's stdint.h: the kit's compiler comes without headers. */
typedef __UINT8_TYPE__ uint8_t;
typedef __UINT16_TYPE__ uint16_t;
typedef __UINT64_TYPE__ uint64_t;
