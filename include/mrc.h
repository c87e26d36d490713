/* The proved 8086 decoder and lister, from C on x86-64. Link libmrc_c.a, which `tools/archive` writes.
 *
 * Every call answers for every input: no position, budget, reading, field or length is forbidden. The caller owns each buffer and
 * record, lends it for the call alone, and what is written to overlaps nothing else that is lent. A pointer whose length is 0 is not
 * followed. Nothing is allocated and nothing is kept between calls, so calls may run at the same time. */
#ifndef MRC_H
#define MRC_H

#include <stddef.h>
#include <stdint.h>

#ifdef __cplusplus
extern "C" {
#endif

enum {
    MRC_LONGEST_LINE = 93,    /* no line is longer, the LF included: proved */
    MRC_LONGEST_IMAGE = 65536 /* the most bytes that mrc_line and mrc_page list */
};

/* The most bytes of stack that a call takes on x86-64, measured and not proved. A decode calls itself after each prefix. */
enum {
    MRC_STACK_USUAL = 8192,   /* with a budget of up to 15, which is that of lines */
    MRC_STACK_LARGEST = 98304 /* with any budget */
};

/* How bytes are read. Every number but MRC_READING_2 is the first reading, 0 too: so no number is undefined, and a setting that is
 * all zeros lists as the given Rust reads.
 *
 * The second reads as Intel's manual does where the first, which is the given Rust's, does not:
 * - 83 extends the sign of its byte to a word;
 * - memory through BP is in MRC_SS unless an override says otherwise, also for LEA, LES, LDS and ESC;
 * - D2 and D3 count in CL, a byte;
 * - C2 has an immediate word, as CA has in both;
 * - ESC takes a whole ModRM with its displacement and has what mod and rm name, a word, as its operand;
 * - A4 to A7, AC, AD and D7 keep the first override before them, where the first reading refuses it;
 * - a line has a displacement of 0 that was written, in the digits of its width, as in `[BX+00]` and `[BX+0000]`, where the first
 *   reading has `[BX]`. */
enum mrc_reading { MRC_READING_1 = 1, MRC_READING_2 = 2 };

/* Why a call is refused. The byte that a refusal carries is 0 where none is named. */
enum mrc_refusal {
    MRC_NOT_REFUSED = 0,
    MRC_END_OF_INPUT = 1,                     /* no opcode byte */
    MRC_COULD_NOT_READ_EXTRA_BYTES = 2,       /* the input ends after the opcode */
    MRC_INVALID_DATA_SIZE_ENCODING = 3,       /* reserved: never given */
    MRC_INVALID_INDIRECT_MEMORY_ENCODING = 4, /* the field: an addressing field of 8 or more */
    MRC_INVALID_MOD_REG_RM_ENCODING = 5,      /* the ModRM byte: 8F with a reg that is not 0 */
    MRC_INVALID_OP_CODE = 6,                  /* the opcode; 01 for F6 and F7 with reg 1 */
    MRC_INVALID_REGISTER_ENCODING = 7,        /* the field: a register field of 8 or more */
    MRC_INVALID_SEGMENT_ENCODING = 8,         /* the field: a segment field of 4 or more */
    MRC_INVALID_PREFIX = 9,                   /* the first segment override: what follows is refused, or has no operands and keeps none */
    MRC_TOO_MANY_PREFIXES = 10,               /* the prefix that is over the budget */
    MRC_OUTSIDE_INPUT = 11,                   /* the position is beyond the length */
    MRC_NO_ROOM = 12,                         /* the line is longer than its buffer */
    MRC_IMAGE_TOO_LONG = 13                   /* the image is longer than MRC_LONGEST_IMAGE */
};

/* A struct of machine words, which the calls write whole. */
#define MRC_WORDS __attribute__((aligned(8)))

/* An operand. What its kind has no use for is 0. A byte displacement of 128 or more stands for itself less 256, a word
 * displacement of 32,768 or more for itself less 65,536; that of MRC_OP_RET, which is an immediate in the second reading, counts
 * bytes of the stack, and a line prints its value as it is. In a decode's answer MRC_INDIRECT is also a displacement of 0 that was
 * written: then `written` of the record is 1 or 2. */
struct mrc_operand {
    uint8_t kind;         /* enum mrc_kind */
    uint8_t named;        /* enum mrc_segment_code of memory and of a segment register, enum mrc_register_code of a register */
    uint8_t mode;         /* enum mrc_addressing_code, of memory that is indirect */
    uint8_t size;         /* enum mrc_size, of memory and registers */
    uint16_t value;       /* offset, displacement or immediate; a byte is below 256 */
    uint16_t far_segment; /* the segment of a far address, whose offset is the value */
};

/* A decode's answer. Of a refusal every field but the first four is 0. Direct by a ModRM has 2 displacement bytes, an instruction
 * without a ModRM none, A0 to A3 too. */
struct MRC_WORDS mrc_record {
    uint8_t refusal;               /* enum mrc_refusal, 0 for an instruction */
    uint8_t byte;                  /* the byte that the refusal carries */
    uint16_t taken;                /* bytes taken from the position on */
    uint16_t prefixes;             /* prefixes among them */
    uint16_t reserved;             /* 0 */
    uint8_t operation;             /* enum mrc_operation */
    uint8_t repeat;                /* 0 no repeat, 1 repeat while equal (F3), 2 repeat while not equal (F2) */
    uint8_t reach;                 /* enum mrc_reach */
    uint8_t kept;                  /* enum mrc_kept */
    uint8_t written;               /* displacement bytes written behind the ModRM: 0, 1 or 2 */
    uint8_t operands;              /* how many operands there are: 0 to 2 */
    uint8_t reserved_2[2];         /* 0 */
    struct mrc_operand operand[3]; /* MRC_DESTINATION, MRC_SOURCE, MRC_THIRD; one that is not there is all 0 */
};

/* The operands of a record. No instruction has a third. */
enum { MRC_DESTINATION = 0, MRC_SOURCE = 1, MRC_THIRD = 2 };

/* Decodes the instruction at a position, with at most `budget` prefixes, in the reading, and writes every byte of the record. */
void mrc_decode(const uint8_t *bytes, size_t length, size_t position, uint8_t budget, uint8_t reading, struct mrc_record *record);

/* The ModRM reader's answer. Of a refusal every field but the refusal and the bytes taken is 0. */
struct MRC_WORDS mrc_modrm {
    uint8_t refusal;            /* enum mrc_refusal: MRC_OUTSIDE_INPUT or MRC_COULD_NOT_READ_EXTRA_BYTES, else 0 */
    uint8_t byte;               /* the ModRM byte */
    uint16_t taken;             /* bytes taken from the position on */
    uint8_t register_code;      /* what reg names: enum mrc_register_code */
    uint8_t written;            /* displacement bytes written behind the ModRM: 0, 1 or 2 */
    uint8_t reserved[2];        /* 0 */
    struct mrc_operand operand; /* what mod and rm name: from MRC_DIRECT to MRC_REGISTER, without segment and size */
};

/* Reads the ModRM byte at a position, and the displacement that follows it, and writes every byte of the record. A
 * displacement of 0 keeps its kind here. */
void mrc_mrrm(const uint8_t *bytes, size_t length, size_t position, struct mrc_modrm *record);

/* The counts of a decode, without its record: the bytes taken, plus 65,536 times the prefixes, plus 2^32 times the refusal's
 * number, which is 0 for an instruction. */
uint64_t mrc_step(const uint8_t *bytes, size_t length, size_t position, uint8_t budget, uint8_t reading);

/* What a field names: its code, or 65,536 times the refusal's number plus the field. */
uint32_t mrc_register(uint8_t field);
uint32_t mrc_segment(uint8_t field);
uint32_t mrc_addressing(uint8_t field);

/* The size of an operand, by the kind and the size that a record has of it: enum mrc_size. `size` counts for memory and
 * registers alone, from MRC_DIRECT to MRC_REGISTER. MRC_NO_SIZE is the answer for a far address and for MRC_DISPLACEMENT_NONE, and
 * also for MRC_ABSENT, for a kind that does not exist, and for memory or a register with a size other than MRC_BYTE and
 * MRC_WORD. */
uint8_t mrc_operand_size(uint8_t kind, uint8_t size);

/* Writes the listing line at a position of an image in the reading, with its LF, to the front of `out`, and no byte behind it;
 * there is no NUL. A buffer of MRC_LONGEST_LINE bytes has room for every line.
 *
 * Answers the line's length plus 65,536 times the bytes of the image that it accounts for; the next line starts behind
 * them. A refused call answers 2^32 times the refusal's number and writes nothing: MRC_IMAGE_TOO_LONG, MRC_OUTSIDE_INPUT,
 * MRC_END_OF_INPUT (the position is the length: no line is left), MRC_NO_ROOM, the first that applies. The byte of each is
 * 0, and a refused call has taken no byte and no prefix. */
uint64_t mrc_line(const uint8_t *image, size_t length, size_t position, uint8_t reading, uint8_t *out, size_t room);

static inline enum mrc_refusal mrc_line_refusal(uint64_t answer) { return (enum mrc_refusal)(answer >> 32); }
static inline size_t mrc_line_length(uint64_t answer) { return (size_t)(answer & 0xFFFF); }
static inline size_t mrc_line_taken(uint64_t answer) { return (size_t)(answer >> 16 & 0xFFFF); }

/* Writes the listing lines from a position of an image on, in the reading, to the front of `out`, as many whole lines as it has
 * room for, and no byte behind them; there is no NUL. A buffer of MRC_LONGEST_LINE bytes or more has room for a line wherever
 * one is left.
 *
 * Answers the length of the text, which is below 2^32, plus 2^32 times the bytes of the image that the lines account for, at
 * most MRC_LONGEST_IMAGE; the next line starts behind them. The answer is 0, and nothing is written, where there is no line
 * (the position is the length or beyond it, or the image is longer than MRC_LONGEST_IMAGE) and where the first has no room:
 * mrc_line says which. */
uint64_t mrc_page(const uint8_t *image, size_t length, size_t position, uint8_t reading, uint8_t *out, size_t room);

static inline size_t mrc_page_length(uint64_t answer) { return (size_t)(answer & 0xFFFFFFFF); }
static inline size_t mrc_page_taken(uint64_t answer) { return (size_t)(answer >> 32); }

enum mrc_kind {
    MRC_ABSENT,
    MRC_DIRECT,
    MRC_INDIRECT,
    MRC_INDIRECT_BYTE,
    MRC_INDIRECT_WORD,
    MRC_REGISTER,
    MRC_SEGMENT,
    MRC_IMMEDIATE_BYTE,
    MRC_IMMEDIATE_WORD,
    MRC_DISPLACEMENT_NONE,
    MRC_DISPLACEMENT_BYTE,
    MRC_DISPLACEMENT_WORD,
    MRC_SEGMENT_AND_OFFSET
};

enum mrc_size { MRC_BYTE, MRC_WORD, MRC_NO_SIZE };

/* How far a CALL, JMP or RET goes: within its segment, or to another. Far are 9A, EA, CA, CB and FF with reg 3 or 5. A line has
 * `FAR` behind the name of what is far. Every other operation is neither, IRET, the conditional jumps and the loops too. */
enum mrc_reach { MRC_NEITHER, MRC_NEAR, MRC_FAR };

enum mrc_segment_code { MRC_ES, MRC_CS, MRC_SS, MRC_DS };

/* The first override before an instruction that has no operands and keeps it: 1 more than the code of its segment. A line has it
 * before the name, as in `ES: MOVSB`. An override of DS differs from none. In the first reading nothing is kept. */
enum mrc_kept { MRC_NOTHING_KEPT, MRC_KEPT_ES, MRC_KEPT_CS, MRC_KEPT_SS, MRC_KEPT_DS };

/* A register as a byte and as a word. */
enum mrc_register_code { MRC_AL_AX, MRC_CL_CX, MRC_DL_DX, MRC_BL_BX, MRC_AH_SP, MRC_CH_BP, MRC_DH_SI, MRC_BH_DI };

enum mrc_addressing_code { MRC_BX_SI, MRC_BX_DI, MRC_BP_SI, MRC_BP_DI, MRC_SI, MRC_DI, MRC_BP, MRC_BX };

enum mrc_operation {
    MRC_OP_MOV, MRC_OP_PUSH, MRC_OP_POP, MRC_OP_XCHG, MRC_OP_IN, MRC_OP_OUT, MRC_OP_XLATB, MRC_OP_LEA,
    MRC_OP_LDS, MRC_OP_LES, MRC_OP_LAHF, MRC_OP_SAHF, MRC_OP_PUSHF, MRC_OP_POPF, MRC_OP_ADD, MRC_OP_ADC,
    MRC_OP_INC, MRC_OP_AAA, MRC_OP_DAA, MRC_OP_SUB, MRC_OP_SBB, MRC_OP_DEC, MRC_OP_NEG, MRC_OP_CMP,
    MRC_OP_AAS, MRC_OP_DAS, MRC_OP_MUL, MRC_OP_IMUL, MRC_OP_AAM, MRC_OP_DIV, MRC_OP_IDIV, MRC_OP_AAD,
    MRC_OP_CBW, MRC_OP_CWD, MRC_OP_NOT, MRC_OP_SHL, MRC_OP_SHR, MRC_OP_SAR, MRC_OP_ROL, MRC_OP_ROR,
    MRC_OP_RCL, MRC_OP_RCR, MRC_OP_AND, MRC_OP_TEST, MRC_OP_OR, MRC_OP_XOR, MRC_OP_MOVSB, MRC_OP_MOVSW,
    MRC_OP_CMPSB, MRC_OP_CMPSW, MRC_OP_SCASB, MRC_OP_SCASW, MRC_OP_LODSB, MRC_OP_LODSW, MRC_OP_STOSB, MRC_OP_STOSW,
    MRC_OP_CALL, MRC_OP_JMP, MRC_OP_RET, MRC_OP_JE, MRC_OP_JL, MRC_OP_JLE, MRC_OP_JB, MRC_OP_JBE,
    MRC_OP_JP, MRC_OP_JO, MRC_OP_JS, MRC_OP_JNE, MRC_OP_JNL, MRC_OP_JNLE, MRC_OP_JNB, MRC_OP_JNBE,
    MRC_OP_JNP, MRC_OP_JNO, MRC_OP_JNS, MRC_OP_LOOP, MRC_OP_LOOPZ, MRC_OP_LOOPNZ, MRC_OP_JCXZ, MRC_OP_INT,
    MRC_OP_INT1, MRC_OP_INT3, MRC_OP_INTO, MRC_OP_IRET, MRC_OP_CLC, MRC_OP_CMC, MRC_OP_STC, MRC_OP_CLD,
    MRC_OP_STD, MRC_OP_CLI, MRC_OP_STI, MRC_OP_HLT, MRC_OP_WAIT, MRC_OP_ESC, MRC_OP_LOCK, MRC_OP_NOP,
    MRC_OP_SALC
};

#ifdef __cplusplus
}
#endif

#endif
