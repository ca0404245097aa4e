/* Linux's CoDel (include/net/codel.h and codel_impl.h of linux-headers, included as they are) at a link: the few kernel names
 * that these headers use are defined here. See codel_link.h for input and output. */
#include "codel_link.h"
#include <limits.h>
#include <stdbool.h>
#include <stdlib.h>
#include <string.h>

typedef uint8_t u8; typedef uint16_t u16; typedef uint32_t u32; typedef uint64_t u64; typedef int32_t s32;
#define NSEC_PER_MSEC 1000000L
#define NSEC_PER_USEC 1000L
#define unlikely(x) (x)
#define typecheck(type, x) 1
#define do_div(n, base) ((n) /= (base))
#define EXPORT_SYMBOL_GPL(x)

struct sk_buff { u32 len; u32 entered; struct sk_buff *next; };
struct Qdisc;

static ns_t now_ns;
static u64 ktime_get_ns(void) { return now_ns; }
static u32 reciprocal_scale(u32 val, u32 ep_ro) { return (u32)(((u64)val * ep_ro) >> 32); }
static bool INET_ECN_set_ce(struct sk_buff *skb) { (void)skb; return false; }
static int skb_get_dsfield(struct sk_buff *skb) { (void)skb; return -1; }

#include <net/codel.h>
#include <net/codel_impl.h>

static struct sk_buff *head, *tail;
static u32 backlog;
static struct codel_params params;
static struct codel_vars vars;
static struct codel_stats stats;

static u32 length_of(const struct sk_buff *skb) { return skb->len; }
static codel_time_t entered(const struct sk_buff *skb) { return skb->entered; }
static void dropped(struct sk_buff *skb, void *ctx) {
    (void)ctx;
    printf("%llu %u\n", now_ns, vars.count);
    free(skb);
}
static struct sk_buff *taken(struct codel_vars *v, void *ctx) {
    struct sk_buff *skb = head;
    (void)v; (void)ctx;
    if (skb) {
        head = skb->next;
        if (!head) tail = NULL;
        backlog -= skb->len;
    }
    return skb;
}

/* The link takes at a moment; answers when it is free again, or 0 where it is idle. */
static ns_t take(ns_t now, ns_t rate) {
    struct sk_buff *skb;
    ns_t free_at = 0;
    now_ns = now;
    skb = codel_dequeue(NULL, &backlog, &params, &vars, &stats, length_of, entered, dropped, taken);
    if (skb) {
        free_at = now + time_of(skb->len, rate);
        free(skb);
    }
    return free_at;
}

int main(void) {
    ns_t rate, target, interval, maxpacket, time, bytes, free_at = 0;
    if (scanf("%llu %llu %llu %llu", &rate, &target, &interval, &maxpacket) != 4) return 1;
    codel_params_init(&params);
    codel_vars_init(&vars);
    codel_stats_init(&stats);
    params.target = target >> CODEL_SHIFT;
    params.interval = interval >> CODEL_SHIFT;
    params.mtu = maxpacket;
    while (scanf("%llu %llu", &time, &bytes) == 2) {
        struct sk_buff *skb = malloc(sizeof *skb);
        while (free_at && free_at <= time) free_at = take(free_at, rate);
        skb->len = bytes;
        now_ns = time;
        skb->entered = codel_get_time();
        skb->next = NULL;
        if (tail) tail->next = skb; else head = skb;
        tail = skb;
        backlog += bytes;
        if (!free_at) free_at = take(time, rate);
    }
    while (free_at) free_at = take(free_at, rate);
    return 0;
}
