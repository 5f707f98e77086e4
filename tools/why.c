/* The command why: the rule that an edit would break, carried back and shortened. */
#include "command.h"

#include <string.h>

/* A carried rule that is being shortened, and the steps so far, three bytes each. */
typedef struct {
    uint8_t *codes, *steps;
    size_t length, count;
} shortened;

/* How many number bytes and operands a code has. */
static size_t number_bytes(uint8_t code) {
    return code == 0x17 || code == 0x24 ? 2
        : code == 0x03 || code == 0x04 || code == 0x0A || code == 0x0B || code == 0x11 || code == 0x23 ? 1 : 0;
}

static size_t operand_count(uint8_t code) {
    if (code <= 0x04 || code == 0x11 || code == 0x17)
        return 0;
    return code == 0x05 || code == 0x12 || code == 0x23 || code == 0x24 || code == 0x27 ? 1 : 2;
}

/* Makes a step: what begins at a place, up to its end, becomes the bytes from one place in it to another. */
static void make_step(shortened *s, size_t at, size_t end, size_t from, size_t to, uint8_t law) {
    uint8_t *step = s->steps + 3 * s->count++;
    step[0] = (uint8_t)(at & 0xFF);
    step[1] = (uint8_t)(at >> 8);
    step[2] = law;
    memmove(s->codes + at, s->codes + from, to - from);
    memmove(s->codes + at + (to - from), s->codes + end, s->length - end);
    s->length -= end - at - (to - from);
}

static bool same_codes(const shortened *s, size_t start, size_t end, size_t other, size_t other_end) {
    return end - start == other_end - other && memcmp(s->codes + start, s->codes + other, end - start) == 0;
}

/* Applies the law that fits at a place, if one does: the second operand is given, and the end of what stands there.
 * Says where it then ends. */
static size_t apply_law(shortened *s, size_t at, size_t second, size_t end) {
    const uint8_t *c = s->codes;
    size_t first = at + 1, from = first, to = second;
    uint8_t law = 0;
    if ((c[at] == 0x05 || c[at] == 0x27) && c[first] == c[at]) {
        law = c[at] == 0x05 ? 1 : 7;
        from = first + 1;
        to = end;
    } else if (c[at] == 0x06 && same_codes(s, first, second, second, end)) {
        law = 2;
    } else if (c[at] == 0x07 && same_codes(s, first, second, second, end)) {
        law = 3;
    } else if (c[at] == 0x26 && same_codes(s, first, second, second, end)) {
        law = 8;
    } else if (c[at] == 0x06 && c[first] == 0x01) {
        law = 6;
        from = second;
        to = end;
    } else if (c[at] == 0x07 && c[first] == 0x01) {
        law = 5;
    } else if (c[at] == 0x06 && c[second] == 0x05 && same_codes(s, first, second, second + 1, end)) {
        law = 4;
        s->codes[first] = 0x02;
        to = first + 1;
    }
    if (law == 0)
        return end;
    make_step(s, at, end, from, to, law);
    return at + (to - from);
}

/* Shortens what begins at a place, from the inside out, and says where it then ends. */
static size_t shorten(shortened *s, size_t at) {
    if (at >= s->length)
        return s->length;
    size_t operands = operand_count(s->codes[at]), second = 0, end = at + 1 + number_bytes(s->codes[at]);
    for (size_t i = 0; i < operands; i++) {
        end = shorten(s, end);
        if (i == 0)
            second = end;
    }
    return operands == 0 ? end : apply_law(s, at, second, end);
}

static const char *law_text(uint8_t law) {
    static const char *const laws[] = {
        "",
        "not(not(E)) becomes E",
        "and(E, E) becomes E",
        "or(E, E) becomes E",
        "and(E, not(E)) becomes none",
        "or(all, E) becomes all",
        "and(all, E) becomes E",
        "not(not(K)) becomes K",
        "or(K, K) becomes K",
    };
    return law < sizeof laws / sizeof *laws ? laws[law] : "";
}

/* The length of the first rule in a scratch. */
static size_t rule_length(const uint8_t *codes, size_t length, size_t at) {
    if (at >= length)
        return length;
    size_t operands = operand_count(codes[at]), end = at + 1 + number_bytes(codes[at]);
    for (size_t i = 0; i < operands; i++)
        end = rule_length(codes, length, end);
    return end;
}

/* Prints the carried rule, its steps, and what they make of it, if the library accepts them. */
static int print_shortened(request *r, const uint8_t *carried) {
    size_t length = rule_length(carried, ZAMIATHEN_CARRIED_BYTES, 0);
    shortened s = {take(r, length), take(r, 3 * length), length, 0};
    memcpy(s.codes, carried, length);
    shorten(&s, 0);
    puts("carried back through the edit, on the sheet as it is:");
    print_rule(r, "  ", carried, length);
    zamiathen_answer answer = zamiathen_check_steps(carried, length, s.steps, 3 * s.count, s.codes, s.length);
    if (answer.number != ZAMIATHEN_DONE) {
        fprintf(stderr, "zamiathen: %zu: %s\n", answer.number, zamiathen_text(answer.number));
        return REFUSED;
    }
    if (s.count == 0) {
        puts("none of the eight laws shortens it");
        return REFUSED;
    }
    printf("shortened from %zu bytes to %zu, in %zu step%s:\n", length, s.length, s.count, s.count == 1 ? "" : "s");
    for (const uint8_t *step = s.steps; step < s.steps + 3 * s.count; step += 3)
        printf("  byte %u, law %u: %s\n", step[0] + 256u * step[1], step[2], law_text(step[2]));
    print_rule(r, "  ", s.codes, s.length);
    return REFUSED;
}

int run_why(request *r) {
    file sheet;
    text book, edit;
    int status = read_case(r, &sheet, &book);
    if (status == DONE)
        status = read_text(r, r->operands[2], true, &edit);
    if (status != DONE)
        return status;
    trial t = try_edit(r, &sheet, &book, &edit);
    if (t.answer.number == ZAMIATHEN_DONE) {
        puts("no rule would be broken");
        return DONE;
    }
    if (t.answer.number != ZAMIATHEN_RULE_BROKEN)
        return answer_fault(r, &sheet, &book, &edit, t.answer);
    print_refusal(r, &book, t.answer.place, "would be", t.who);
    return print_shortened(r, t.scratch);
}
