// Stands for the header of this name: the kit's compiler has none at hand.
typedef __SIZE_TYPE__ size_t;
#define NULL ((void *)0)
