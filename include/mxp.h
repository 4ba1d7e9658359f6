/* The memory stage's calls for C and C++, in libmxp.a. "Document 01" is the order that says what a list, a row, a
   constraint and a refusal are; each call is proved to answer as it says, on any bytes.

   A slice is a pointer and a length. Of a slice of length 0 nothing is read, and its pointer may be NULL. Lent bytes
   stay as they are but for the filler's buffer. The numbers of an answer are written to `out`, all of them in every
   case; the enums below name their places. `out` and the filler's buffer overlap nothing else that is lent. No call
   allocates, keeps what it was lent or has a state of its own, so calls from several threads do not meet. */
#ifndef MXP_H
#define MXP_H

#include <stddef.h>
#include <stdint.h>

#ifdef __cplusplus
extern "C" {
#endif

/* The bytes of a row. */
#define MXP_ROW_BYTES 114

/* The most rows of a trace. */
#define MXP_MAX_ROWS 65536

/* The most bytes of a list. */
#define MXP_MAX_LIST_BYTES 4194304

/* Where every answer but mxp_step's says whether the call refuses. Where it does, all further numbers are 0. */
enum {
    MXP_REFUSED, /* an mxp_refusal, 0 if there is none */
    MXP_LINE,    /* of MXP_NOT_OF_FORM to MXP_UNUSED_FIELD: the line, from 1; else 0 */
    MXP_COLUMN,  /* 0 */
    MXP_HEAD_NUMBERS
};

/* Document 01's refusals. Of several that apply the lowest is given; those of a line come line by line. */
enum mxp_refusal {
    MXP_NOT_REFUSED,
    /* The filler's. */
    MXP_LIST_TOO_LONG,     /* more than MXP_MAX_LIST_BYTES */
    MXP_NO_EMPTY_ROW,      /* 0 empty rows are asked for */
    MXP_NOT_OF_FORM,       /* a line is not of the form */
    MXP_CN_ZERO,           /* a line's cn is 0 */
    MXP_OPCODE_NOT_LISTED, /* a line's opcode is not in the table */
    MXP_UNUSED_FIELD,      /* a field that a line's opcode has no use for is not 0 */
    MXP_FILL_TOO_LONG,     /* the trace would have more than MXP_MAX_ROWS */
    MXP_BUFFER_SHORT,      /* the buffer is too short for the trace */
    /* Those of the calls over a trace. */
    MXP_TRACE_LENGTH,   /* the length is 0 or not a multiple of MXP_ROW_BYTES */
    MXP_TRACE_TOO_LONG, /* more than MXP_MAX_ROWS */
    MXP_NOT_ACCEPTED,   /* the checker does not accept the trace; by all but the checker */
    MXP_NO_INSTRUCTION, /* the trace has no instruction k */
    MXP_CONTEXT_ZERO,   /* the context is 0 */
    MXP_LIMIT_TOO_LOW   /* more cycles would have to be looked at than the limit allows */
};

/* mxp_check's answer. */
enum {
    MXP_CHECK_ACCEPTED = MXP_HEAD_NUMBERS, /* 1 if every row meets every constraint, else 0 */
    MXP_CHECK_INSTRUCTIONS,                /* accepted: the instructions, out-of-bounds ones too; else 0 */
    MXP_CHECK_OOB,                         /* accepted: the out-of-bounds instructions; else 0 */
    MXP_CHECK_EMPTY,                       /* accepted: the empty rows; else 0 */
    MXP_CHECK_ROW,                         /* not accepted: the lowest row that breaks a constraint, from 0; else 0 */
    MXP_CHECK_CONSTRAINT,                  /* not accepted: the lowest constraint that it breaks, 1 to 26; else 0 */
    MXP_CHECK_NUMBERS
};

/* Checks a trace, whoever made it. Refuses by MXP_TRACE_LENGTH and MXP_TRACE_TOO_LONG. */
void mxp_check(const uint8_t *trace, size_t trace_len, uint64_t out[MXP_CHECK_NUMBERS]);

/* mxp_fill's answer. */
enum {
    MXP_FILL_ROWS = MXP_HEAD_NUMBERS, /* the rows that were written, from the front of the buffer */
    MXP_FILL_NUMBERS
};

/* Fills a buffer with the trace of a list: `empty` rows of zeros, then 3 rows for each instruction, or 17 if it is out
   of bounds. MXP_MAX_ROWS rows are always enough room. The bytes behind the rows stay, and on a refusal all of them.
   Refuses by MXP_LIST_TOO_LONG to MXP_BUFFER_SHORT. */
void mxp_fill(const uint8_t *list, size_t list_len, uint64_t empty, uint8_t *buffer, size_t buffer_len,
              uint64_t out[MXP_FILL_NUMBERS]);

/* mxp_rows's answer. */
enum {
    MXP_ROWS_FIRST = MXP_HEAD_NUMBERS, /* where the rows start in the trace, in bytes */
    MXP_ROWS_LENGTH,                   /* how many bytes they are */
    MXP_ROWS_NUMBERS
};

/* The rows of instruction k, counted from 1, as a part of the trace. Checks the trace, and refuses by MXP_TRACE_LENGTH
   to MXP_NO_INSTRUCTION. */
void mxp_rows(const uint8_t *trace, size_t trace_len, uint64_t k, uint64_t out[MXP_ROWS_NUMBERS]);

/* mxp_claim's answer. An end is top * 2^128 + hi * 2^64 + lo. */
enum {
    MXP_CLAIM_CN = MXP_HEAD_NUMBERS, /* the context, 1 to 2^32 - 1 */
    MXP_CLAIM_END1_TOP,              /* the end of the first range, or 0; top is at most 255 */
    MXP_CLAIM_END1_HI,
    MXP_CLAIM_END1_LO,
    MXP_CLAIM_END2_TOP, /* the end of the second range, or 0; top is at most 255 */
    MXP_CLAIM_END2_HI,
    MXP_CLAIM_END2_LO,
    MXP_CLAIM_NUMBERS
};

/* The claim of instruction k, counted from 1. Checks the trace, and refuses as mxp_rows does. */
void mxp_claim(const uint8_t *trace, size_t trace_len, uint64_t k, uint64_t out[MXP_CLAIM_NUMBERS]);

/* mxp_last_state's answer. */
enum {
    MXP_LAST_STATE_MEM = MXP_HEAD_NUMBERS, /* the bytes of memory that the context has reached */
    MXP_LAST_STATE_COST,                   /* the gas that it has paid for them in all */
    MXP_LAST_STATE_LOOKED,                 /* how many cycles were looked at, from the last one back */
    MXP_LAST_STATE_NUMBERS
};

/* The last state of a context, with a look at no more than `limit` cycles; 0 bytes and 0 gas if it has no cycle. Checks
   the trace, and refuses by MXP_TRACE_LENGTH to MXP_NOT_ACCEPTED, MXP_CONTEXT_ZERO and MXP_LIMIT_TOO_LOW. */
void mxp_last_state(const uint8_t *trace, size_t trace_len, uint32_t cn, uint64_t limit,
                    uint64_t out[MXP_LAST_STATE_NUMBERS]);

/* mxp_open's answer. */
enum {
    MXP_OPEN_NEXT = MXP_HEAD_NUMBERS, /* the row to step from: the one after the empty rows */
    MXP_OPEN_NUMBERS
};

/* Opens a walk over the cycles of a trace. Checks the trace, and refuses by MXP_TRACE_LENGTH to MXP_NOT_ACCEPTED. */
void mxp_open(const uint8_t *trace, size_t trace_len, uint64_t out[MXP_OPEN_NUMBERS]);

/* mxp_step's answer, which has no refusal. */
enum {
    MXP_STEP_FIRST,  /* where the cycle starts in the trace, in bytes; 0 if there is none */
    MXP_STEP_LENGTH, /* how many bytes it is: 0 if there is none, which ends the walk */
    MXP_STEP_NEXT,   /* the row to step from next; `next` itself if there is no cycle */
    MXP_STEP_NUMBERS
};

/* One step of a walk: the cycle that starts at the row `next`, 3 rows, or 17 if that row's OOOB is 1. There is none if
   so many whole rows do not remain. Takes any bytes and any row, and checks nothing: mxp_open has. */
void mxp_step(const uint8_t *trace, size_t trace_len, uint64_t next, uint64_t out[MXP_STEP_NUMBERS]);

#ifdef __cplusplus
}
#endif

#endif
