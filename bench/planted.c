/* What bench/stack has to tell, one at a time: a function beside the library's that takes too much stack, or so that nobody can say how much. */
typedef __SIZE_TYPE__ size_t;
int printf(const char *, ...);
/* called as the library's functions call each other, not by way of the loader */
#pragma GCC visibility push(protected)

#if FAULT == 1 /* a large array */
int wm_planted(size_t i) {
    volatile char room[1024];
    room[i % sizeof room] = 1;
    return room[0];
}
#elif FAULT == 2 /* it calls itself */
int wm_planted(size_t i) {
    volatile int once = 1;
    return i == 0 ? once : wm_planted(i - 1) + once;
}
#elif FAULT == 3 /* a call through a pointer */
int wm_planted(int (*f)(void)) {
    return f() + 1;
}
#elif FAULT == 4 /* a frame whose size is not constant */
int wm_planted(size_t i) {
    volatile char room[i + 1];
    room[i] = 1;
    return room[0];
}
#elif FAULT == 5 /* it calls itself by way of another */
__attribute__((noinline)) int wm_planted(size_t i);
__attribute__((noinline)) static int other(size_t i) {
    volatile int once = 1;
    return wm_planted(i / 2) + once;
}
int wm_planted(size_t i) {
    volatile int once = 1;
    return i == 0 ? once : other(i - 1) + once;
}
#else /* another function of the C library */
int wm_planted(size_t i) {
    return printf("%zu", i) + 1;
}
#endif
