/* Calls each exported function from C, through include/mrc.h. Prints each answer that is not the expected one. */
#include "mrc.h"

#include <stdio.h>
#include <string.h>

static int failures;

static void expect(const char *what, uint64_t answer, uint64_t expected)
{
    if (answer != expected) {
        printf("%s: %llu, not %llu\n", what, (unsigned long long)answer, (unsigned long long)expected);
        failures++;
    }
}

/* Where the fields stand, of which the library knows as machine words alone. */
static void layout(void)
{
    expect("bytes of an operand", sizeof(struct mrc_operand), 8);
    expect("kind", offsetof(struct mrc_operand, kind), 0);
    expect("named", offsetof(struct mrc_operand, named), 1);
    expect("mode", offsetof(struct mrc_operand, mode), 2);
    expect("size", offsetof(struct mrc_operand, size), 3);
    expect("value", offsetof(struct mrc_operand, value), 4);
    expect("far segment", offsetof(struct mrc_operand, far_segment), 6);
    expect("bytes of a record", sizeof(struct mrc_record), 40);
    expect("refusal", offsetof(struct mrc_record, refusal), 0);
    expect("byte", offsetof(struct mrc_record, byte), 1);
    expect("taken", offsetof(struct mrc_record, taken), 2);
    expect("prefixes", offsetof(struct mrc_record, prefixes), 4);
    expect("reserved", offsetof(struct mrc_record, reserved), 6);
    expect("operation", offsetof(struct mrc_record, operation), 8);
    expect("repeat", offsetof(struct mrc_record, repeat), 9);
    expect("reach", offsetof(struct mrc_record, reach), 10);
    expect("kept", offsetof(struct mrc_record, kept), 11);
    expect("written", offsetof(struct mrc_record, written), 12);
    expect("operands", offsetof(struct mrc_record, operands), 13);
    expect("reserved 2", offsetof(struct mrc_record, reserved_2), 14);
    expect("destination", offsetof(struct mrc_record, operand[MRC_DESTINATION]), 16);
    expect("source", offsetof(struct mrc_record, operand[MRC_SOURCE]), 24);
    expect("third", offsetof(struct mrc_record, operand[MRC_THIRD]), 32);
    expect("bytes of a ModRM", sizeof(struct mrc_modrm), 16);
    expect("refusal of a ModRM", offsetof(struct mrc_modrm, refusal), 0);
    expect("byte of a ModRM", offsetof(struct mrc_modrm, byte), 1);
    expect("taken by a ModRM", offsetof(struct mrc_modrm, taken), 2);
    expect("register of a ModRM", offsetof(struct mrc_modrm, register_code), 4);
    expect("written behind a ModRM", offsetof(struct mrc_modrm, written), 5);
    expect("reserved in a ModRM", offsetof(struct mrc_modrm, reserved), 6);
    expect("operand of a ModRM", offsetof(struct mrc_modrm, operand), 8);
    struct { uint8_t first; struct mrc_record record; struct mrc_modrm modrm; } aligned;
    expect("alignment of a record", (uintptr_t)&aligned.record % 8, 0);
    expect("alignment of a ModRM", (uintptr_t)&aligned.modrm % 8, 0);
}

static void same(const char *what, struct mrc_operand operand, struct mrc_operand expected)
{
    expect(what, (uint64_t)memcmp(&operand, &expected, sizeof operand), 0);
}

static const struct mrc_operand absent;

/* Every byte of the record is written, whatever it held. */
static struct mrc_record read(const uint8_t *bytes, size_t length, uint8_t budget, uint8_t reading)
{
    struct mrc_record record;
    memset(&record, 0xA5, sizeof record);
    mrc_decode(bytes, length, 0, budget, reading, &record);
    expect("what is reserved", record.reserved, 0);
    expect("what is reserved", record.reserved_2[0] + record.reserved_2[1], 0);
    same("third operand", record.operand[MRC_THIRD], absent);
    return record;
}

static struct mrc_record decoded(const uint8_t *bytes, size_t length, uint8_t budget)
{
    struct mrc_record record = read(bytes, length, budget, MRC_READING_1);
    expect("kept", record.kept, MRC_NOTHING_KEPT);
    return record;
}

/* 26 8B 47 FE is MOV AX, WORD ES:[BX-02], and 26 89 47 FE has its operands the other way round. */
static void decode(void)
{
    const uint8_t load[] = {0x26, 0x8B, 0x47, 0xFE};
    const struct mrc_operand ax = {MRC_REGISTER, MRC_AL_AX, 0, MRC_WORD, 0, 0};
    const struct mrc_operand memory = {MRC_INDIRECT_BYTE, MRC_ES, MRC_BX, MRC_WORD, 0xFE, 0};
    struct mrc_record record = decoded(load, sizeof load, 15);
    expect("refusal", record.refusal, MRC_NOT_REFUSED);
    expect("byte", record.byte, 0);
    expect("taken", record.taken, 4);
    expect("prefixes", record.prefixes, 1);
    expect("operation", record.operation, MRC_OP_MOV);
    expect("repeat", record.repeat, 0);
    expect("neither near nor far", record.reach, MRC_NEITHER);
    expect("written", record.written, 1);
    expect("operands", record.operands, 2);
    same("destination", record.operand[MRC_DESTINATION], ax);
    same("source", record.operand[MRC_SOURCE], memory);
    const uint8_t store[] = {0x26, 0x89, 0x47, 0xFE};
    record = decoded(store, sizeof store, 15);
    same("destination in memory", record.operand[MRC_DESTINATION], memory);
    same("source in a register", record.operand[MRC_SOURCE], ax);
}

/* 9A 34 12 78 56 is CALL FAR 5678:1234, 26 FE 1F is near, and F2 A4 is REPNE MOVSB. */
static void decode_one_and_none(void)
{
    const uint8_t call[] = {0x9A, 0x34, 0x12, 0x78, 0x56};
    const struct mrc_operand far = {MRC_SEGMENT_AND_OFFSET, 0, 0, 0, 0x1234, 0x5678};
    struct mrc_record record = decoded(call, sizeof call, 15);
    expect("operation with one operand", record.operation, MRC_OP_CALL);
    expect("far", record.reach, MRC_FAR);
    expect("nothing written of a far address", record.written, 0);
    expect("one operand", record.operands, 1);
    same("far address", record.operand[MRC_DESTINATION], far);
    same("no source", record.operand[MRC_SOURCE], absent);
    const uint8_t near[] = {0x26, 0xFE, 0x1F};
    record = decoded(near, sizeof near, 15);
    expect("near", record.reach, MRC_NEAR);
    const uint8_t move[] = {0xF2, 0xA4};
    record = decoded(move, sizeof move, 15);
    expect("operation without operands", record.operation, MRC_OP_MOVSB);
    expect("repeat while not equal", record.repeat, 2);
    expect("neither", record.reach, MRC_NEITHER);
    expect("no operand", record.operands, 0);
    same("no destination", record.operand[MRC_DESTINATION], absent);
}

static void refused_decode(void)
{
    const uint8_t bytes[] = {0xF3, 0x90};
    struct mrc_record expected = {0};
    expected.refusal = MRC_TOO_MANY_PREFIXES;
    expected.byte = 0xF3;
    expected.taken = 1;
    expected.prefixes = 1;
    struct mrc_record record = decoded(bytes, sizeof bytes, 0);
    expect("refused decode", (uint64_t)memcmp(&record, &expected, sizeof record), 0);
}

static void mrrm(void)
{
    const uint8_t bytes[] = {0x8F, 0x00, 0x80};
    const struct mrc_modrm expected = {MRC_NOT_REFUSED, 0x8F, 3, MRC_CL_CX, 2, {0}, {MRC_INDIRECT_WORD, 0, MRC_BX, 0, 0x8000, 0}};
    struct mrc_modrm record;
    memset(&record, 0xA5, sizeof record);
    mrc_mrrm(bytes, sizeof bytes, 0, &record);
    expect("ModRM", (uint64_t)memcmp(&record, &expected, sizeof expected), 0);
    const struct mrc_modrm refused = {.refusal = MRC_COULD_NOT_READ_EXTRA_BYTES, .taken = 2};
    mrc_mrrm(bytes, 2, 0, &record);
    expect("refused ModRM", (uint64_t)memcmp(&record, &refused, sizeof refused), 0);
    const uint8_t direct[] = {0x0E, 0x34, 0x12}, zero[] = {0x4F, 0x00}, none[] = {0x0F}, in_register[] = {0xCF};
    mrc_mrrm(direct, sizeof direct, 0, &record);
    expect("written of Direct by the reader", record.written, 2);
    mrc_mrrm(zero, sizeof zero, 0, &record);
    expect("written 0 of the reader", record.written, 1);
    expect("kind of a written 0 of the reader", record.operand.kind, MRC_INDIRECT_BYTE);
    mrc_mrrm(none, sizeof none, 0, &record);
    expect("nothing written of the reader", record.written, 0);
    mrc_mrrm(in_register, sizeof in_register, 0, &record);
    expect("nothing written of a register", record.written, 0);
}

static void numbers(void)
{
    expect("register", mrc_register(7), MRC_BH_DI);
    expect("refused register", mrc_register(8), MRC_INVALID_REGISTER_ENCODING * 65536u + 8);
    expect("segment", mrc_segment(3), MRC_DS);
    expect("refused segment", mrc_segment(4), MRC_INVALID_SEGMENT_ENCODING * 65536u + 4);
    expect("addressing", mrc_addressing(7), MRC_BX);
    expect("refused addressing", mrc_addressing(8), MRC_INVALID_INDIRECT_MEMORY_ENCODING * 65536u + 8);
    expect("size of a register", mrc_operand_size(MRC_REGISTER, MRC_WORD), MRC_WORD);
    expect("size of a far address", mrc_operand_size(MRC_SEGMENT_AND_OFFSET, 0), MRC_NO_SIZE);
    expect("size of no operand", mrc_operand_size(MRC_ABSENT, MRC_WORD), MRC_NO_SIZE);
    expect("size of no kind", mrc_operand_size(MRC_SEGMENT_AND_OFFSET + 1, MRC_WORD), MRC_NO_SIZE);
    expect("no size of a register", mrc_operand_size(MRC_REGISTER, MRC_NO_SIZE), MRC_NO_SIZE);
}

static void line(void)
{
    const uint8_t image[] = {0x90, 0xF3, 0xA4};
    const char expected[] = "0001  F3 A4                  REPE MOVSB\n";
    uint8_t out[MRC_LONGEST_LINE];
    uint64_t answer = mrc_line(image, sizeof image, 1, MRC_READING_1, out, sizeof out);
    expect("length of a line", mrc_line_length(answer), strlen(expected));
    expect("taken by a line", mrc_line_taken(answer), 2);
    expect("line", (uint64_t)memcmp(out, expected, strlen(expected)), 0);
    answer = mrc_line(image, sizeof image, sizeof image, MRC_READING_1, out, sizeof out);
    expect("refused line", mrc_line_refusal(answer), MRC_END_OF_INPUT);
}

/* What a return counts is its own word, wherever it stands: in the record a displacement, in the second reading an immediate, in the line
 * four digits. */
static void counted_return(void)
{
    uint8_t image[0x103];
    memset(image, 0x90, sizeof image);
    memcpy(image + 0x100, "\xC2\xFC\xFF", 3);
    struct mrc_record record;
    mrc_decode(image, sizeof image, 0x100, 15, MRC_READING_1, &record);
    expect("kind of a counted return", record.operand[MRC_DESTINATION].kind, MRC_DISPLACEMENT_WORD);
    expect("count of a return", record.operand[MRC_DESTINATION].value, 0xFFFC);
    mrc_decode(image, sizeof image, 0x100, 15, MRC_READING_2, &record);
    expect("kind in the second reading", record.operand[MRC_DESTINATION].kind, MRC_IMMEDIATE_WORD);
    expect("count in the second reading", record.operand[MRC_DESTINATION].value, 0xFFFC);
    const char expected[] = "0100  C2 FC FF               RET FFFC\n";
    uint8_t out[MRC_LONGEST_LINE];
    uint64_t answer = mrc_line(image, sizeof image, 0x100, MRC_READING_1, out, sizeof out);
    expect("length of a counted return", mrc_line_length(answer), strlen(expected));
    expect("line of a counted return", (uint64_t)memcmp(out, expected, strlen(expected)), 0);
}

/* A buffer with room for the first line and not for the second. */
static void page(void)
{
    const uint8_t image[] = {0x90, 0xF3, 0xA4};
    const char first[] = "0000  90                     NOP\n";
    uint8_t out[40];
    memset(out, 0xA5, sizeof out);
    uint64_t answer = mrc_page(image, sizeof image, 0, MRC_READING_1, out, sizeof out);
    expect("length of a page", mrc_page_length(answer), strlen(first));
    expect("taken by a page", mrc_page_taken(answer), 1);
    expect("page", (uint64_t)memcmp(out, first, strlen(first)), 0);
    expect("behind a page", out[strlen(first)], 0xA5);
    expect("page at the end", mrc_page(image, sizeof image, sizeof image, MRC_READING_1, out, sizeof out), 0);
}

/* A pointer whose length is 0 is not followed. */
static void nothing_lent(void)
{
    expect("refusal of nothing", decoded(NULL, 0, 15).refusal, MRC_END_OF_INPUT);
    struct mrc_record record;
    mrc_decode(NULL, 0, SIZE_MAX, 15, MRC_READING_1, &record);
    expect("refusal outside of nothing", record.refusal, MRC_OUTSIDE_INPUT);
    struct mrc_modrm modrm;
    mrc_mrrm(NULL, 0, 0, &modrm);
    expect("refusal of no ModRM", modrm.refusal, MRC_COULD_NOT_READ_EXTRA_BYTES);
    expect("step of nothing", mrc_step(NULL, 0, 0, 15, MRC_READING_1) >> 32, MRC_END_OF_INPUT);
    expect("line of nothing", mrc_line_refusal(mrc_line(NULL, 0, 0, MRC_READING_1, NULL, 0)), MRC_END_OF_INPUT);
    const uint8_t nop[] = {0x90};
    expect("line into nothing", mrc_line_refusal(mrc_line(nop, sizeof nop, 0, MRC_READING_1, NULL, 0)), MRC_NO_ROOM);
    expect("page of nothing", mrc_page(NULL, 0, 0, MRC_READING_1, NULL, 0), 0);
    expect("page into nothing", mrc_page(nop, sizeof nop, 0, MRC_READING_1, NULL, 0), 0);
}

static void step(void)
{
    const uint8_t bytes[] = {0x26, 0x8B, 0x47, 0xFE};
    expect("step", mrc_step(bytes, sizeof bytes, 0, 15, MRC_READING_1), 4 + 65536 * 1);
    expect("refused step", mrc_step(bytes, sizeof bytes, 0, 0, MRC_READING_1), 1 + 65536 * 1 + ((uint64_t)MRC_TOO_MANY_PREFIXES << 32));
}

static void lists(const uint8_t *image, size_t length, uint8_t reading, const char *expected)
{
    uint8_t out[MRC_LONGEST_LINE];
    uint64_t answer = mrc_line(image, length, 0, reading, out, sizeof out);
    expect("length of a line in a reading", mrc_line_length(answer), strlen(expected));
    expect(expected, (uint64_t)memcmp(out, expected, strlen(expected)), 0);
    answer = mrc_page(image, length, 0, reading, out, strlen(expected));
    expect("length of a page in a reading", mrc_page_length(answer), strlen(expected));
    expect(expected, (uint64_t)memcmp(out, expected, strlen(expected)), 0);
}

/* 26 A4 is refused in the first reading and keeps ES in the second. */
static void kept(void)
{
    const uint8_t move[] = {0x26, 0xA4};
    expect("refused override", decoded(move, sizeof move, 15).refusal, MRC_INVALID_PREFIX);
    struct mrc_record record = read(move, sizeof move, 15, MRC_READING_2);
    expect("refusal of a kept override", record.refusal, MRC_NOT_REFUSED);
    expect("kept", record.kept, MRC_KEPT_ES);
    expect("kept is a segment and one", record.kept, MRC_ES + 1);
    expect("no operand beside what is kept", record.operands, 0);
    lists(move, sizeof move, MRC_READING_1, "0000  26                     DB 26\n");
    lists(move, sizeof move, MRC_READING_2, "0000  26 A4                  ES: MOVSB\n");
    const uint8_t of_ds[] = {0x3E, 0xA4};
    expect("DS is kept", read(of_ds, sizeof of_ds, 15, MRC_READING_2).kept, MRC_KEPT_DS);
    expect("nothing is kept", read(of_ds + 1, 1, 15, MRC_READING_2).kept, MRC_NOTHING_KEPT);
}

static void writes(const uint8_t *bytes, size_t length, enum mrc_kind kind, uint8_t written)
{
    for (uint8_t reading = MRC_READING_1; reading <= MRC_READING_2; reading++) {
        struct mrc_record record = read(bytes, length, 15, reading);
        expect("kind of a source in memory", record.operand[MRC_SOURCE].kind, kind);
        expect("displacement bytes written", record.written, written);
    }
}

/* A displacement of 0 is MRC_INDIRECT, as none is; the bytes written tell them apart, and so does a line of the second reading. */
static void written(void)
{
    const uint8_t none[] = {0x8B, 0x07}, byte[] = {0x8B, 0x47, 0x00}, word[] = {0x8B, 0x87, 0x00, 0x00};
    const uint8_t in_es[] = {0x26, 0x8B, 0x47, 0x00}, direct[] = {0x8B, 0x06, 0x34, 0x12}, no_modrm[] = {0xA1, 0x34, 0x12};
    writes(none, sizeof none, MRC_INDIRECT, 0);
    writes(byte, sizeof byte, MRC_INDIRECT, 1);
    writes(word, sizeof word, MRC_INDIRECT, 2);
    writes(in_es, sizeof in_es, MRC_INDIRECT, 1);
    writes(direct, sizeof direct, MRC_DIRECT, 2);
    writes(no_modrm, sizeof no_modrm, MRC_DIRECT, 0);
    const uint8_t refused[] = {0x8F, 0x48, 0x00};
    expect("nothing written of a refusal", read(refused, sizeof refused, 15, MRC_READING_2).written, 0);
    lists(none, sizeof none, MRC_READING_2, "0000  8B 07                  MOV AX, WORD DS:[BX]\n");
    lists(byte, sizeof byte, MRC_READING_1, "0000  8B 47 00               MOV AX, WORD DS:[BX]\n");
    lists(byte, sizeof byte, MRC_READING_2, "0000  8B 47 00               MOV AX, WORD DS:[BX+00]\n");
    lists(word, sizeof word, MRC_READING_1, "0000  8B 87 00 00            MOV AX, WORD DS:[BX]\n");
    lists(word, sizeof word, MRC_READING_2, "0000  8B 87 00 00            MOV AX, WORD DS:[BX+0000]\n");
    lists(in_es, sizeof in_es, MRC_READING_2, "0000  26 8B 47 00            MOV AX, WORD ES:[BX+00]\n");
}

/* 83 C0 FF extends its sign in the second reading, and D8 46 02 takes its displacement. */
static void readings(void)
{
    const uint8_t add[] = {0x83, 0xC0, 0xFF};
    const uint8_t esc[] = {0xD8, 0x46, 0x02};
    const uint8_t firsts[] = {0, MRC_READING_1, 3, 255};
    for (size_t i = 0; i < sizeof firsts; i++) {
        expect("first reading", read(add, sizeof add, 15, firsts[i]).operand[MRC_SOURCE].value, 0x00FF);
        expect("step in the first", mrc_step(esc, sizeof esc, 0, 15, firsts[i]), 2);
        lists(add, sizeof add, firsts[i], "0000  83 C0 FF               ADD AX, 00FF\n");
    }
    expect("second reading", read(add, sizeof add, 15, MRC_READING_2).operand[MRC_SOURCE].value, 0xFFFF);
    expect("step in the second", mrc_step(esc, sizeof esc, 0, 15, MRC_READING_2), 3);
    lists(add, sizeof add, MRC_READING_2, "0000  83 C0 FF               ADD AX, FFFF\n");
    lists(esc, sizeof esc, MRC_READING_2, "0000  D8 46 02               ESC WORD SS:[BP+02]\n");
}

int main(void)
{
    layout();
    decode();
    decode_one_and_none();
    refused_decode();
    mrrm();
    numbers();
    line();
    counted_return();
    page();
    step();
    kept();
    written();
    readings();
    nothing_lent();
    return failures != 0;
}
