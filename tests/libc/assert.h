void __assert_fail(const char *, const char *, unsigned, const char *) __attribute__((noreturn));
#define assert(holds) ((holds) ? (void)0 : __assert_fail(#holds, __FILE__, __LINE__, __func__))
