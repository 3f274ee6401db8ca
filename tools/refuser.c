/* Refuses growths of a program that it is loaded into before the library of C, by LD_PRELOAD.
 *
 * The program asks for it by a request for more bytes than there can be. 2^62 and N ask that the Nth request from now on is
 * refused, 2^62 + 2^60 and N that it is and each one behind it, and 2^62 + 2^61 whether the Nth was. The first two are refused, and
 * the last is granted where the answer is yes; none is refused from then on. crates/nv_refuser has the other side. Each request for
 * a block and each for another size of one is counted, also of the library of C itself. It stands without headers, so that the
 * toolchain's compiler alone builds it.
 */
typedef unsigned long size;

extern void *__libc_malloc(size bytes);
extern void *__libc_realloc(void *block, size bytes);

static const size WORDS = 1UL << 62;
static const size OF_REST = 5UL << 60;
static const size WAS_REFUSED = 3UL << 61;

/* How many requests are left up to the one that is refused; none is where it is 0 or less. */
static long left;
/* Whether those behind it are refused too, and whether they are by now. */
static int is_of_rest, is_rest;
static int was_refused;

static void begin(size number, int of_rest)
{
    __atomic_store_n(&was_refused, 0, __ATOMIC_SEQ_CST);
    __atomic_store_n(&is_rest, 0, __ATOMIC_SEQ_CST);
    __atomic_store_n(&is_of_rest, of_rest, __ATOMIC_SEQ_CST);
    __atomic_store_n(&left, (long)number, __ATOMIC_SEQ_CST);
}

/* Takes a word, and tells whether it is refused. */
static int is_word_refused(size bytes)
{
    int answer = __atomic_load_n(&was_refused, __ATOMIC_SEQ_CST);
    if (bytes < OF_REST)
        begin(bytes - WORDS, 0);
    else if (bytes < WAS_REFUSED)
        begin(bytes - OF_REST, 1);
    else if (bytes == WAS_REFUSED)
        begin(0, 0);
    return bytes != WAS_REFUSED || !answer;
}

/* Counts a request, and tells whether it is refused. */
static int is_refused(void)
{
    if (__atomic_load_n(&is_rest, __ATOMIC_SEQ_CST))
        return 1;
    if (__atomic_load_n(&left, __ATOMIC_SEQ_CST) <= 0 || __atomic_sub_fetch(&left, 1, __ATOMIC_SEQ_CST) != 0)
        return 0;
    __atomic_store_n(&was_refused, 1, __ATOMIC_SEQ_CST);
    __atomic_store_n(&is_rest, __atomic_load_n(&is_of_rest, __ATOMIC_SEQ_CST), __ATOMIC_SEQ_CST);
    return 1;
}

void *malloc(size bytes)
{
    if (bytes >= WORDS)
        return is_word_refused(bytes) ? 0 : __libc_malloc(1);
    return is_refused() ? 0 : __libc_malloc(bytes);
}

void *realloc(void *block, size bytes)
{
    if (bytes >= WORDS)
        return 0;
    return is_refused() ? 0 : __libc_realloc(block, bytes);
}
