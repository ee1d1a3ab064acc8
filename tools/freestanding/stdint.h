/* What include/girderbasil.h uses of C's <stdint.h>, for a compiler that has no C library beside it. */
typedef __UINT8_TYPE__ uint8_t;
typedef __UINT32_TYPE__ uint32_t;
typedef __UINT64_TYPE__ uint64_t;
