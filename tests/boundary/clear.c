/* What is left of a key. Work is done on a stack that is an array of this program, and the array is then searched:
 *
 *   paviluko_clear on a local state leaves nothing of its key, however the compiler optimises; without it the key is found,
 *   so the search can find one;
 *   calls of the library, and then a function that is not inlined and writes zeros to a volatile array of PAVILUKO_STACK
 *   bytes, called from the function that made the calls: nothing is left below that function's frame (in the frame itself
 *   there may be copies of the state, as an argument or a reply; so the example wipes from a function further up);
 *   the host of examples/firmware.c, and then its own clear_stack: nothing is left on the whole stack, and its array covers
 *   all that the host had used.
 *
 * The example is included here, so that its very functions are tried. */
#define main firmware_main
#include "../../examples/firmware.c"
#undef main

#include <ucontext.h>

enum { STACK = 1 << 20, PAINT = 0xe7, PIECE = 8 };

static uint8_t stack[STACK];

/* Does work on the stack, painted before. Nothing else runs there. */
static void on_stack(void (*work)(void))
{
    static ucontext_t here, there;
    memset(stack, PAINT, STACK);
    getcontext(&there);
    there.uc_stack.ss_sp = stack;
    there.uc_stack.ss_size = STACK;
    there.uc_link = &here;
    makecontext(&there, work, 0);
    swapcontext(&here, &there);
}

/* How many places below `end` hold 8 bytes of the key, from any byte of it. */
static unsigned long found(const uint8_t *end)
{
    unsigned long places = 0;
    const uint8_t *at;
    for (at = stack; at + PIECE <= end; at++) {
        int from;
        for (from = 0; from + PIECE <= PAVILUKO_KEY_LEN; from++) {
            places += memcmp(at, key + from, PIECE) == 0;
        }
    }
    return places;
}

/* The lowest byte of the stack that is not painted any more. */
static const uint8_t *lowest(void)
{
    const uint8_t *at = stack;
    while (*at == PAINT) {
        at++;
    }
    return at;
}

static void expect(int good, const char *what)
{
    if (!good) {
        printf("clear: %s\n", what);
        exit(1);
    }
}

static int clears; /* whether the work ends with wiping */

/* ---- a local state ---- */

static void use(paviluko_state *s)
{
    memcpy(s->key, key, sizeof s->key);
}

/* The compiler cannot know what this calls. */
static void (*volatile use_it)(paviluko_state *) = use;

static void hold(void)
{
    paviluko_state s;
    use_it(&s);
    if (clears) {
        paviluko_clear(&s);
    }
}

/* ---- calls, and the header's way to wipe the stack ---- */

static const uint8_t *below; /* where the frames begin of what the working function calls */

static NOT_INLINED void mark_below(void)
{
    below = (const uint8_t *)__builtin_frame_address(0);
}

static NOT_INLINED void wipe(void)
{
    volatile uint8_t bytes[PAVILUKO_STACK];
    size_t i;
    for (i = 0; i < sizeof bytes; i++) {
        bytes[i] = 0;
    }
}

static void calls(void)
{
    static paviluko_state s;
    static uint8_t put_out[PAVILUKO_CHECKPOINT_LEN];
    static const uint8_t text[16] = {1, 0, 0, 0, 0, 0, 0, 0, 7, 0, 1, 0, 9, 0, 0, 0};
    paviluko_vault x;
    int calls_made = 0;
    memset(&x, 0, sizeof x);
    mark_below();
    paviluko_do_load(&s, &x, key, sizeof key);
    while (s.phase != PAVILUKO_IN_SERVICE && calls_made++ < 15) {
        paviluko_do_recover(&s, NULL, 0, NULL, 0, put_out, sizeof put_out);
    }
    paviluko_do_accept(&s, text, sizeof text, 3, 0);
    paviluko_do_seal(&s, put_out, sizeof put_out);
    paviluko_do_commit(&s, put_out, sizeof text + PAVILUKO_RECORD_EXTRA);
    expect(paviluko_reading(s, 7).reading == 9, "the calls were turned down");
    paviluko_clear(&s);
    if (clears) {
        wipe();
    }
}

/* ---- the example ---- */

static const uint8_t *host_below;

static void host(void)
{
    size_t i;
    mark_below();
    host_below = below;
    new_box();
    lose_power();
    expect(start() == DONE, "the host did not start");
    for (i = 0; i < 10; i++) {
        expect(take(day[i].bytes, day[i].len, day[i].lane) == DONE, "the host did not take a transaction");
    }
    expect(tidy() == DONE, "the host made no checkpoint");
    show();
    expect(start() == DONE, "the host did not start again");
    paviluko_clear(&ram.state);
    if (clears) {
        clear_stack();
    }
}

int main(void)
{
    unsigned long left_calls, left_host;
    size_t deep_calls, deep_host;
    make_day();

    clears = 0;
    on_stack(hold);
    expect(found(stack + STACK) > 0, "the key of a state that was not cleared was not found: the search is no good");
    clears = 1;
    on_stack(hold);
    expect(found(stack + STACK) == 0, "paviluko_clear left a piece of the key");

    clears = 0;
    on_stack(calls);
    left_calls = found(below);
    deep_calls = (size_t)(below - lowest());
    expect(deep_calls < PAVILUKO_STACK, "calls use more than PAVILUKO_STACK bytes");
    clears = 1;
    on_stack(calls);
    expect(found(below) == 0, "a piece of the key is left below the function that called and wiped");

    clears = 0;
    on_stack(host);
    left_host = found(stack + STACK);
    deep_host = (size_t)(host_below - lowest());
    expect(deep_host < PAVILUKO_STACK + HOST_STACK, "the host uses more stack than clear_stack wipes");
    clears = 1;
    on_stack(host);
    expect(found(stack + STACK) == 0, "a piece of the key is left after the example's clear_stack");

    printf("no piece of a key is left (unwiped: %lu below calls %lu KB deep, %lu below a host %lu KB deep)\n", left_calls,
           (unsigned long)(deep_calls + 1023) / 1024, left_host, (unsigned long)(deep_host + 1023) / 1024);
    return 0;
}
