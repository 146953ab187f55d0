/* What a printed header needs of the kernel's file of this name, and no more. */
typedef _Bool bool;
typedef long long int64_t;
enum { false = 0, true = 1 };
