/* hnd: a daemon for HNCP (RFC 7787, RFC 7788) on Linux, over the router of libhn_router_c.a. hnd.8 says how it is used.
 *
 * The library decides. Here are the clock and the loop; log.c has the lines, links.c the interfaces, sockets.c what is sent
 * and what arrives, netlink.c what is asked of the system, routes.c addresses and routes, adverts.c Router Advertisements,
 * held.c replies that wait, commands.c and control.c the commands, uplinks.c the prefixes that are delegated here, ula.c that of
 * the router's own making, state.c and file.c what is kept over a restart. */
#include "hnd.h"

#include <errno.h>
#include <poll.h>
#include <signal.h>
#include <string.h>
#include <sys/signalfd.h>
#include <unistd.h>

/* How many packets of a socket are taken in a turn, and how many milliseconds the router lives on at the end. */
enum { BATCH = 16, LINGER = 1000 };

/* What is polled: input, HNCP, ICMPv6, signals, netlink, the log, and then the control socket and its clients. */
enum { INPUT, HNCP, NEIGHBORS, SIGNALS, SYSTEM, LOG, CONTROL, POLLED = CONTROL + 1 + MOST_CLIENTS };

static int signals = -1;

/* Signals that end it are read as from a socket, and so is that of a process that has written the file of -k. Where nobody reads
 * what is written, nothing ends. */
static void open_signals(void)
{
    sigset_t ends;
    sigemptyset(&ends);
    sigaddset(&ends, SIGTERM);
    sigaddset(&ends, SIGINT);
    sigaddset(&ends, SIGHUP);
    sigaddset(&ends, SIGCHLD);
    sigprocmask(SIG_BLOCK, &ends, NULL);
    signal(SIGPIPE, SIG_IGN);
    signal(SIGCHLD, SIG_DFL);
    signals = signalfd(-1, &ends, SFD_CLOEXEC | SFD_NONBLOCK);
    if (signals < 0)
        fail(FAILED, "signalfd", strerror(errno));
}

/* Takes a signal. */
static void take_signal(void)
{
    struct signalfd_siginfo it;
    if (read(signals, &it, sizeof it) != sizeof it)
        return;
    is_told_to_end |= it.ssi_signo != SIGCHLD;
    want_report();
}

/* Milliseconds until something is due, or until a moment. */
static int wait_until(uint64_t until)
{
    uint64_t at = now(), dues[] = {router_due(), held_due(), links_due(), routes_due(), adverts_due(), state_due(), ula_due(), log_due()};
    until = earlier(until, at + LONGEST_WAIT);
    for (size_t place = 0; place < sizeof dues / sizeof dues[0]; place++)
        until = earlier(until, dues[place]);
    return until > at ? (int)(until - at) : 0;
}

/* Ticks as soon as something is due, whatever arrives meanwhile. */
static void tick_if_due(void)
{
    if (router_due() <= now())
        tick();
}

/* Takes some packets of a socket. */
static void take_all(enum received (*take)(void))
{
    for (unsigned count = 0; count < BATCH && take() != NOTHING; count++)
        tick_if_due();
}

/* Waits, at most until a moment, and does what came and what is due. */
static void turn(uint64_t until)
{
    struct pollfd heard[POLLED] = {
        [INPUT] = {input_descriptor(), POLLIN, 0}, [HNCP] = {udp, POLLIN, 0},       [NEIGHBORS] = {icmp, POLLIN, 0},
        [SIGNALS] = {signals, POLLIN, 0},          [SYSTEM] = {netlink_descriptor(), POLLIN, 0},
        [LOG] = {log_descriptor(), POLLOUT, 0},
    };
    size_t count = CONTROL + control_descriptors(heard + CONTROL);
    if (poll(heard, (nfds_t)count, wait_until(until)) < 0 && errno != EINTR)
        fail(FAILED, "poll", strerror(errno));
    if (heard[LOG].revents != 0)
        write_log();
    follow_links();
    if (heard[INPUT].revents != 0)
        take_input();
    if (heard[HNCP].revents != 0)
        take_all(take_datagram);
    if (heard[NEIGHBORS].revents != 0)
        take_all(take_neighbor);
    if (heard[SIGNALS].revents != 0)
        take_signal();
    serve_control(heard + CONTROL, count - CONTROL);
    tick_if_due();
    send_held();
    report();
    send_adverts();
}

/* Makes the router, and delegates to it what the options say. The links come with the first turn. */
static void begin(void)
{
    read_state();
    begin_router();
    begin_state();
    begin_routes();
    for (size_t place = 0; place < settings.uplink_count; place++) {
        const char *why = add_uplink(&settings.uplinks[place]);
        if (why != NULL)
            fail(FAILED, "-p", why);
    }
    begin_ula();
}

/* Withdraws the own delegated prefixes. If there were some, the router lives on until others have heard of it and asked.
 * Then hosts are told, and addresses and routes go. */
static void finish(void)
{
    end_ula();
    bool were_some = remove_uplinks();
    tick();
    for (uint64_t until = were_some ? now() + LINGER : 0; now() < until;)
        turn(until);
    end_left();
    end_state();
    report();
    while (!end_adverts())
        turn(adverts_due());
    drop_held(NULL);
    end_routes();
    end_control();
    hn_router_free(&router);
    end_log();
}

int main(int count, char **words)
{
    start_clock();
    draw(&settings.id, sizeof settings.id);
    read_options(count, words);
    if (settings.command != NULL)
        ask_daemon();
    begin_links(words + optind, (size_t)(count - optind));
    open_input();
    open_log();
    open_udp();
    if (settings.advertises)
        open_icmp();
    open_netlink();
    open_signals();
    open_control();
    begin();
    drop_rights();
    while (!is_told_to_end && now() < settings.ends)
        turn(settings.ends);
    finish();
    return 0;
}
