/* smi answer as plain C, to measure the program beside it where there is no rustc: the same tests and the same answers,
   64 KiB at a time, with nothing between the bytes and the keeper's record. */

#include <errno.h>
#include <stdbool.h>
#include <stdint.h>
#include <stdio.h>
#include <string.h>
#include <unistd.h>

enum { BLOCK = 64 * 1024, TREE = 17, STATION = 1, DOMAIN = 1 };
enum { FREE, OPERATOR, DOMAIN_ABOVE };

static const uint64_t LAST_EPOCH = UINT64_C(1) << 62;
static const uint32_t LAST_NUMBER = 1000000;
static const uint32_t LAST_BOOT = 4000000000u;

/* What the keeper knows of the domain. It stands alone, so no command stays at work. */
struct record {
    uint64_t epoch;
    uint8_t kind;
    uint16_t holder;
    uint32_t last;
    uint16_t outcome;
};

/* ---- the fields */

static uint16_t u16_at(const uint8_t *b, int at) { return (uint16_t)(b[at] << 8 | b[at + 1]); }
static uint32_t u32_at(const uint8_t *b, int at) { return (uint32_t)u16_at(b, at) << 16 | u16_at(b, at + 2); }
static uint64_t u64_at(const uint8_t *b, int at) { return (uint64_t)u32_at(b, at) << 32 | u32_at(b, at + 4); }

static void put(uint8_t *b, int at, int width, uint64_t number) {
    for (int i = 0; i < width; i++)
        b[at + i] = (uint8_t)(number >> 8 * (width - 1 - i));
}

/* ---- the tests */

static bool is_between(uint32_t low, uint32_t high, uint32_t number) { return low <= number && number <= high; }
static bool is_domain(uint16_t number) { return is_between(1, 128, number); }
static bool is_object(uint16_t number) { return is_between(1, 640, number); }
static bool is_boot(uint32_t number) { return is_between(1, LAST_BOOT, number); }
static bool is_grant_epoch(uint64_t epoch) { return epoch <= LAST_EPOCH && epoch % 2 == 1; }

static bool is_holder(const uint8_t *b) {
    uint16_t number = u16_at(b, 12);
    switch (b[10]) {
    case FREE: return number == 0;
    case OPERATOR: return is_between(1, 32, number);
    case DOMAIN_ABOVE: return is_domain(number);
    default: return false;
    }
}

static bool is_party(const uint8_t *b) { return b[10] != FREE && is_holder(b); }
static bool is_grant_zero(const uint8_t *b) { return b[10] == 0 && u16_at(b, 12) == 0 && u64_at(b, 16) == 0; }
static bool is_version_zero(const uint8_t *b) { return u32_at(b, 36) == 0 && u32_at(b, 40) == 0; }
static bool is_watch_zero(const uint8_t *b) { return u32_at(b, 32) == 0 && is_version_zero(b); }

static bool is_command_zero(const uint8_t *b) {
    return b[11] == 0 && u16_at(b, 14) == 0 && u32_at(b, 24) == 0 && u16_at(b, 28) == 0;
}

/* The last tests of a datagram that is well spelled: its tree, its station, and that it is about the domain. */
static int for_this_domain(const uint8_t *b) {
    if (u16_at(b, 30) != TREE)
        return 7;
    if (u16_at(b, 6) != STATION)
        return 8;
    return u16_at(b, 8) == DOMAIN ? 0 : 9;
}

static int from_operator(const uint8_t *b) {
    int refusal = for_this_domain(b);
    return refusal == 0 && b[10] != OPERATOR ? 9 : refusal;
}

/* ---- the keeper: each answers the number of the refusal, or 0 */

static bool is_held(const struct record *r, const uint8_t *b) {
    return r->kind == b[10] && r->holder == u16_at(b, 12) && r->epoch == u64_at(b, 16);
}

static int ask(const uint8_t *b) {
    if (!is_domain(u16_at(b, 8)))
        return 5;
    if (!is_grant_zero(b) || !is_command_zero(b) || !is_watch_zero(b))
        return 6;
    return for_this_domain(b);
}

static int take(struct record *r, const uint8_t *b) {
    uint64_t seen = u64_at(b, 16);
    if (!is_party(b) || !is_domain(u16_at(b, 8)) || seen > LAST_EPOCH)
        return 5;
    if (!is_command_zero(b) || !is_watch_zero(b))
        return 6;
    int refusal = from_operator(b);
    if (refusal == 0 && r->kind == FREE && r->epoch == seen && seen < LAST_EPOCH)
        *r = (struct record){.epoch = seen + 1, .kind = OPERATOR, .holder = u16_at(b, 12)};
    return refusal;
}

static int let_go(struct record *r, const uint8_t *b) {
    if (!is_party(b) || !is_domain(u16_at(b, 8)) || !is_grant_epoch(u64_at(b, 16)))
        return 5;
    if (!is_command_zero(b) || !is_watch_zero(b))
        return 6;
    int refusal = from_operator(b);
    if (refusal == 0 && is_held(r, b))
        *r = (struct record){.epoch = r->epoch + 1};
    return refusal;
}

static int run(struct record *r, const uint8_t *b) {
    uint16_t verb = u16_at(b, 14), argument = u16_at(b, 28);
    uint32_t number = u32_at(b, 24);
    if (!is_party(b) || !is_domain(u16_at(b, 8)) || !is_grant_epoch(u64_at(b, 16)))
        return 5;
    if (!is_between(1, LAST_NUMBER, number) || !is_between(1, 5, verb) || (b[2] == 2) != (verb >= 4))
        return 5;
    if (!is_between(1, verb == 1 ? 64 : 128, argument))
        return 5;
    if (b[11] != 0 || !is_watch_zero(b))
        return 6;
    int refusal = from_operator(b);
    if (refusal == 0 && is_held(r, b) && number == r->last + 1) {
        r->last = number;
        r->outcome = verb == 1 ? 0 : 2;
    }
    return refusal;
}

static int told(const uint8_t *b) {
    uint64_t epoch = u64_at(b, 16);
    uint32_t last = u32_at(b, 24);
    uint16_t outcome = u16_at(b, 14);
    bool is_free = b[10] == FREE;
    if (!is_holder(b) || !is_domain(u16_at(b, 8)) || epoch > LAST_EPOCH || last > LAST_NUMBER)
        return 5;
    if (is_free != (epoch % 2 == 0) || b[11] > 1 || (is_free && last != 0))
        return 5;
    if ((last == 0 && (b[11] != 0 || outcome != 0)) || (b[11] != 0 && outcome != 0) || (outcome > 7 && outcome != 9))
        return 5;
    if (u16_at(b, 28) != 0 || !is_watch_zero(b))
        return 6;
    int refusal = for_this_domain(b);
    return refusal == 0 ? 9 : refusal;
}

static int watched(const uint8_t *b) {
    if (!is_object(u16_at(b, 8)) || !is_boot(u32_at(b, 32)))
        return 5;
    if (!is_grant_zero(b) || !is_command_zero(b) || !is_version_zero(b))
        return 6;
    int refusal = for_this_domain(b);
    return refusal == 0 ? 9 : refusal;
}

static int shown(const uint8_t *b) {
    if (!is_object(u16_at(b, 8)) || !is_boot(u32_at(b, 32)) || !is_boot(u32_at(b, 36)) || u32_at(b, 40) > LAST_BOOT)
        return 5;
    if (!is_between(1, 64, u16_at(b, 14)))
        return 5;
    if (b[11] != 0 || u32_at(b, 24) != 0 || u16_at(b, 28) != 0 || !is_grant_zero(b))
        return 6;
    int refusal = for_this_domain(b);
    return refusal == 0 ? 9 : refusal;
}

static int hear(struct record *r, const uint8_t *b) {
    if (b[0] != 'S' || b[1] != 'M')
        return 2;
    if (b[2] != 1 && b[2] != 2)
        return 3;
    if (!is_between(1, 8, b[3]) || (b[2] == 2 && b[3] != 4))
        return 4;
    if (!is_domain(u16_at(b, 4)) || !is_domain(u16_at(b, 6)) || u16_at(b, 30) == 0)
        return 5;
    switch (b[3]) {
    case 1: return ask(b);
    case 2: return take(r, b);
    case 3: return let_go(r, b);
    case 4: return run(r, b);
    case 5: return told(b);
    case 7: return shown(b);
    default: return watched(b);
    }
}

static void tell(const struct record *r, uint16_t to, uint8_t *b) {
    memset(b, 0, 44);
    memcpy(b, "SM\1\5", 4);
    put(b, 4, 2, STATION);
    put(b, 6, 2, to);
    put(b, 8, 2, DOMAIN);
    b[10] = r->kind;
    put(b, 12, 2, r->holder);
    put(b, 14, 2, r->outcome);
    put(b, 16, 8, r->epoch);
    put(b, 24, 4, r->last);
    put(b, 30, 2, TREE);
}

/* ---- the loop */

static ssize_t read_some(uint8_t *to, size_t most) {
    ssize_t given;
    do
        given = read(0, to, most);
    while (given < 0 && errno == EINTR);
    return given;
}

static bool write_all(const uint8_t *from, size_t count) {
    while (count > 0) {
        ssize_t taken = write(1, from, count);
        if (taken > 0) {
            from += taken;
            count -= (size_t)taken;
        } else if (taken == 0 || errno != EINTR) {
            return false;
        }
    }
    return true;
}

static int refused(unsigned long long place, int refusal) {
    fprintf(stderr, "datagram %llu refused %d\n", place, refusal);
    return 1;
}

int main(void) {
    static uint8_t block[BLOCK], answers[BLOCK];
    struct record record = {0};
    size_t rest = 0;
    unsigned long long count = 0;
    for (;;) {
        ssize_t given = read_some(block + rest, BLOCK - rest);
        if (given < 0)
            return 3;
        if (given == 0)
            return rest == 0 ? 0 : refused(count + 1, 1);
        size_t end = rest + (size_t)given, at = 0;
        int refusal = 0;
        for (; end - at >= 44; at += 44) {
            refusal = hear(&record, block + at);
            if (refusal != 0)
                break;
            tell(&record, u16_at(block + at, 4), answers + at);
            count++;
        }
        if (!write_all(answers, at))
            return 3;
        if (refusal != 0)
            return refused(count + 1, refusal);
        rest = end - at;
        memmove(block, block + at, rest);
    }
}
