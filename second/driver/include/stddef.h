/* The toolchain's compiler comes without C headers; this is what include/lcs.h needs of this one. */
typedef __SIZE_TYPE__ size_t;
