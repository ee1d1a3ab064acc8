/* What include/girderbasil.h uses of C's <stddef.h>, for a compiler that has no C library beside it. */
typedef __SIZE_TYPE__ size_t;
#define offsetof(type, field) __builtin_offsetof(type, field)
