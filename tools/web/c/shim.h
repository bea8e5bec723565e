/* Numbers by their bits; a pointer has 64. */
typedef unsigned char u8;
typedef int i32;
typedef long i64;
typedef unsigned long u64;

_Static_assert(sizeof(void *) == 8 && sizeof(u64) == 8, "this is for wasm64");
