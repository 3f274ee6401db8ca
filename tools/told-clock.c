/* The clock of a program into which this is loaded before the library of C, by LD_PRELOAD: it goes on by a tenth of a second
 * whenever it is read, and by nothing else. It stands without headers, so that the toolchain's compiler alone builds it.
 */
struct time {
    long seconds, nanoseconds;
};

static long tenths;

int clock_gettime(int clock, struct time *time)
{
    (void)clock;
    time->seconds = tenths / 10;
    time->nanoseconds = tenths % 10 * 100000000;
    tenths++;
    return 0;
}
