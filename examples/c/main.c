/* Reads a statement, a strike and a request, writes each again, and shows some refusals. */
#include "gate.h"

#include <stdio.h>
#include <string.h>

static int failures = 0;

static void expect(int holds, const char *what) {
    if (!holds) {
        failures++;
        printf("NOT AS EXPECTED: %s\n", what);
    }
}

static void print_range(const char *name, const uint8_t *bytes, GateRange r) {
    printf(" %s", name);
    for (size_t i = 0; i < r.len; i++) printf("%s%02x", i == 0 ? " " : "", bytes[r.start + i]);
}

static void print_refusal(GateRefusal r) {
    printf("refused: layer %u number %u place %u %zu %zu\n", r.layer, r.number, r.input, r.start, r.len);
}

/* Reads a message, prints it, and writes it again into a buffer that must then hold the same bytes. */
static void show(const uint8_t *bytes, size_t len) {
    GateMessage m;
    GateRefusal r;
    memset(&m, 0xee, sizeof m);
    memset(&r, 0xee, sizeof r);
    uint32_t code = gate_read(bytes, len, &m, &r);
    if (code != 0) {
        expect(code == r.number, "the answer is the refusal's number");
        print_refusal(r);
        return;
    }
    uint8_t out[256];
    size_t written = 0;
    memset(out, 0xee, sizeof out);
    switch (m.kind) {
    case GATE_STATEMENT:
        printf("statement %u from %u until %u", m.serial, m.from, m.until);
        print_range("sayer", bytes, m.sayer);
        print_range("left", bytes, m.left);
        print_range("right", bytes, m.right);
        code = gate_write_statement(m.serial, m.from, m.until, bytes + m.sayer.start, m.sayer.len, bytes + m.left.start,
                                    m.left.len, bytes + m.right.start, m.right.len, out, sizeof out, &written, &r);
        break;
    case GATE_STRIKE:
        printf("strike %u", m.serial);
        code = gate_write_strike(m.serial, out, sizeof out, &written, &r);
        break;
    default:
        printf("request %u object %u operation %u", m.number, m.object, m.operation);
        print_range("sayer", bytes, m.sayer);
        code = gate_write_request(m.number, (uint16_t)m.object, (uint8_t)m.operation, bytes + m.sayer.start,
                                  m.sayer.len, out, sizeof out, &written, &r);
    }
    printf("\n");
    expect(code == 0 && written == len && memcmp(out, bytes, len) == 0, "written again as the same bytes");
    expect(out[len] == 0xee, "later bytes stay");
}

int main(void) {
    const uint8_t statement[] = {1, 0, 0, 0, 5, 0, 0, 0, 100, 0, 0, 0, 200, 1, 0, 0, 0, 1, 1, 0, 0, 0, 7, 2, 0, 0, 0, 100};
    const uint8_t strike[] = {2, 0, 0, 0, 5};
    const uint8_t request[] = {3, 0, 0, 0, 12, 0, 3, 2, 1, 0, 0, 0, 7};
    show(statement, sizeof statement);
    show(strike, sizeof strike);
    show(request, sizeof request);

    show(statement, 0);                          /* nothing */
    show(statement, sizeof statement - 1);       /* cut short inside the last term */
    show((const uint8_t[]){9, 1, 2}, 3);         /* an unknown kind */
    show((const uint8_t[]){2, 0, 0, 0, 5, 6}, 6); /* a byte left over */

    /* a buffer one byte short: nothing is written */
    uint8_t out[13];
    size_t written = 99;
    GateRefusal r;
    memset(out, 0xee, sizeof out);
    const uint8_t channel[] = {1, 0, 0, 0, 7};
    uint32_t code = gate_write_request(12, 3, 2, channel, sizeof channel, out, 12, &written, &r);
    expect(code == 19 && written == 99 && out[0] == 0xee && out[11] == 0xee, "a short buffer is left as it was");
    print_refusal(r);
    code = gate_write_request(12, 3, 2, channel, sizeof channel, out, 13, &written, &r);
    expect(code == 0 && written == 13 && memcmp(out, request, 13) == 0, "an exact fit is written");
    /* the second term is no term: input 2 */
    code = gate_write_statement(5, 100, 200, channel, 5, channel, 3, channel, 5, out, sizeof out, &written, &r);
    expect(code == 1, "cut short");
    print_refusal(r);

    printf(failures == 0 ? "all as expected\n" : "%d not as expected\n", failures);
    return failures != 0;
}
