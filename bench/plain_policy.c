/* plain_policy.c: reads and checks a policy file, and says where codes lead. */
#include "plain_policy.h"

#include <string.h>

static unsigned read_frame(const uint8_t *bytes, size_t length, struct policy *p)
{
    if (length < 9)
        return 2;
    if (memcmp(bytes, "POL", 3) != 0)
        return 3;
    if (bytes[3] != 0 || (bytes[4] != 1 && bytes[4] != 2))
        return 4;
    p->events = bytes[5];
    p->fields = bytes[6];
    p->variables = bytes[7];
    p->rules = bytes[8];
    if (p->events > MOST_EVENTS || p->fields < 1 || p->fields > MOST_FIELDS || p->variables > MOST_VARIABLES || p->rules > MOST_RULES)
        return 5;
    p->starts = bytes[4] == 2 ? p->variables : 0;
    if (length != 9 + p->fields + p->starts + p->rules * (2 * p->fields + 2 + 3 * p->variables) + p->events * p->variables)
        return 6;
    p->requests = 1;
    for (unsigned f = 0; f < p->fields; f++) {
        p->count[f] = bytes[9 + f];
        if (p->count[f] < 1 || p->count[f] > 16)
            return 7;
        p->requests *= p->count[f];
    }
    if (p->requests > MOST_REQUESTS)
        return 7;
    for (unsigned j = 0; j < p->starts; j++)
        if (bytes[9 + p->fields + j] > 63)
            return 17;
    p->width = p->events + 2 * p->requests;
    return 0;
}

/* Reads the rules and events. A wrong mask comes before a wrong value, so the values are judged last. */
static unsigned read_records(const uint8_t *at, struct policy *p)
{
    int values_hold = 1;
    for (unsigned k = 0; k < p->rules; k++) {
        struct rule *rule = &p->rule[k];
        for (unsigned f = 0; f < p->fields; f++, at += 2) {
            rule->mask[f] = (uint16_t)(at[0] << 8 | at[1]);
            if (rule->mask[f] == 0 || rule->mask[f] >> p->count[f] != 0)
                return 8;
        }
        rule->decision = *at++;
        rule->level = *at++;
        if (rule->decision > 1)
            values_hold = 0;
        for (unsigned j = 0; j < p->variables; j++, at += 3) {
            rule->ge[j] = at[0];
            rule->lt[j] = at[1];
            rule->change[j] = at[2];
            if (at[0] > 63 || at[1] > 63 || at[2] > 2)
                values_hold = 0;
        }
    }
    for (unsigned e = 0; e < p->events; e++) {
        for (unsigned j = 0; j < p->variables; j++, at++) {
            p->event[e][j] = *at;
            if (*at > 2)
                values_hold = 0;
        }
    }
    return values_hold ? 0 : 9;
}

static unsigned find_bounds(struct policy *p)
{
    p->valuations = 1;
    for (unsigned j = 0; j < p->variables; j++) {
        unsigned most = 0;
        for (unsigned k = 0; k < p->rules; k++) {
            if (p->rule[k].ge[j] > most)
                most = p->rule[k].ge[j];
            if (p->rule[k].lt[j] > most)
                most = p->rule[k].lt[j];
        }
        p->bound[j] = most;
        p->valuations *= most + 1;
    }
    return p->valuations > MOST_VALUATIONS ? 10 : 0;
}

/* The valuation before any step, from the starting values that the file carries. */
static unsigned start_of(const struct policy *p, const uint8_t *starts)
{
    unsigned start = 0;
    for (unsigned j = p->starts; j-- > 0;) {
        unsigned x = starts[j] < p->bound[j] ? starts[j] : p->bound[j];
        start = start * (p->bound[j] + 1) + x;
    }
    return start;
}

unsigned read_policy(const uint8_t *bytes, size_t length, struct policy *p)
{
    unsigned refusal = read_frame(bytes, length, p);
    if (refusal == 0)
        refusal = read_records(bytes + 9 + p->fields + p->starts, p);
    if (refusal == 0)
        refusal = find_bounds(p);
    if (refusal == 0)
        p->start = start_of(p, bytes + 9 + p->fields);
    return refusal;
}

/* Bit k says that the masks of rule k let the request through. */
static uint32_t rules_for_request(const struct policy *p, unsigned request)
{
    unsigned value[MOST_FIELDS];
    for (unsigned f = p->fields; f-- > 0; request /= p->count[f])
        value[f] = request % p->count[f];
    uint32_t through = 0;
    for (unsigned k = 0; k < p->rules; k++) {
        unsigned f = 0;
        while (f < p->fields && (p->rule[k].mask[f] >> value[f] & 1))
            f++;
        if (f == p->fields)
            through |= (uint32_t)1 << k;
    }
    return through;
}

static int enabled(const struct policy *p, const struct rule *rule, const unsigned *value)
{
    for (unsigned j = 0; j < p->variables; j++)
        if (value[j] < rule->ge[j] || (rule->lt[j] != 0 && value[j] >= rule->lt[j]))
            return 0;
    return 1;
}

static unsigned carried_out(const struct policy *p, const uint8_t *change, const unsigned *value)
{
    unsigned target = 0;
    for (unsigned j = p->variables; j-- > 0;) {
        unsigned x = value[j];
        if (change[j] == 2)
            x = 0;
        else if (change[j] == 1 && x < p->bound[j])
            x++;
        target = target * (p->bound[j] + 1) + x;
    }
    return target;
}

/* Where the rules of the greatest level lead, those that accept and those that reject. */
static void decide(const struct policy *p, uint32_t rules, const uint64_t *target, uint64_t *accepted, uint64_t *rejected)
{
    unsigned best = 0;
    for (uint32_t left = rules; left != 0; left &= left - 1) {
        unsigned level = p->rule[__builtin_ctz(left)].level;
        if (level > best)
            best = level;
    }
    uint64_t led[2] = { 0, 0 };
    for (uint32_t left = rules; left != 0; left &= left - 1) {
        unsigned k = (unsigned)__builtin_ctz(left);
        if (p->rule[k].level == best)
            led[p->rule[k].decision] |= target[k];
    }
    *accepted = led[1];
    *rejected = led[0];
}

void fill_images(const struct policy *p, images image)
{
    uint32_t through[MOST_REQUESTS];
    for (unsigned r = 0; r < p->requests; r++)
        through[r] = rules_for_request(p, r);
    for (unsigned v = 0; v < p->valuations; v++) {
        unsigned value[MOST_VARIABLES], rest = v;
        for (unsigned j = 0; j < p->variables; j++) {
            value[j] = rest % (p->bound[j] + 1);
            rest /= p->bound[j] + 1;
        }
        uint64_t target[MOST_RULES];
        uint32_t on = 0;
        for (unsigned k = 0; k < p->rules; k++) {
            target[k] = (uint64_t)1 << carried_out(p, p->rule[k].change, value);
            on |= (uint32_t)enabled(p, &p->rule[k], value) << k;
        }
        for (unsigned e = 0; e < p->events; e++)
            image[v][e] = (uint64_t)1 << carried_out(p, p->event[e], value);
        for (unsigned r = 0; r < p->requests; r++) {
            uint64_t *at = &image[v][p->events + 2 * r];
            decide(p, through[r] & on, target, &at[0], &at[1]);
        }
    }
}
