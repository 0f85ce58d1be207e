/* The library of Pulvanor for C and other languages, on x86-64 Linux.

   `rt lib` in crates/pulvanor writes out/libpulvanor.a there; compile with this header and link with it:

       cc -Iinclude program.c crates/pulvanor/out/libpulvanor.a

   Every function takes every value of its numbers, bytes and states. Of a pointer and the length after it is
   asked that they are those of memory that can be read (and, for a buffer, written), that the buffer overlaps
   nothing else that is handed in, that nothing else writes to either meanwhile, and that the pointer is not
   null even where the length is 0. Nothing is kept between two calls, no memory is asked for, and threads may
   call at once.

   `number` in an answer is 0 if the call is accepted, and else the one refusal whose condition is the first to
   hold; README.md lists them. Where refusals 1 to 6, 1 to 7, 1 to 8 or 1 to 10 of a sheet are named below, 28 is
   among them, after 5 and before 6: a byte from 20 on is in no section. */
#ifndef PULVANOR_H
#define PULVANOR_H

#include <stddef.h>
#include <stdint.h>

#ifdef __cplusplus
extern "C" {
#endif

#define PULVANOR_TASKS 64                     /* the most tasks of a sheet */
#define PULVANOR_PRINTED 8                    /* the most tasks for the equations as printed */
#define PULVANOR_SHEET 4096                   /* the most bytes of a sheet */
#define PULVANOR_RECORD 5                     /* the bytes of a log's record */
#define PULVANOR_POWER 16                     /* the highest power */
#define PULVANOR_NAMES 16                     /* the most names that a run holds */
#define PULVANOR_TIME ((1ULL << 34) - 1)      /* the longest time and the most energy that is given */

/* 0 and a time in ticks, or a refusal and time 0. A plan by energy has its energy in place of the time. A time is
   the expected one, the average over runs, and so is an energy: one run may take longer, and what margin to add
   is the caller's choice. */
struct pulvanor_answer {
    uint64_t number;
    uint64_t time;
};

/* 0 and a section of the sheet, its kind byte included, or a refusal and 0, 0. */
struct pulvanor_found {
    uint64_t number;
    size_t start;
    size_t size;
};

/* 0 and how many bytes of the buffer are the joined sheet, or a refusal and 0. */
struct pulvanor_joined {
    uint64_t number;
    size_t length;
};

/* The platform section of a sheet. Going back to a copy on disk costs rd + rm, to one in memory rm, and to the
   start nothing. */
struct pulvanor_platform {
    uint32_t failstop;                        /* rates: r means r / 2^48 errors a tick */
    uint32_t silent;
    uint32_t cd;                              /* ticks: a copy on disk, a copy in memory, a verification, */
    uint32_t cm;
    uint32_t v;
    uint32_t rd;                              /* reading back a copy on disk, one in memory */
    uint32_t rm;
};

/* The values of a sheet. Weights past task n are 0 in a fresh run and never read. */
struct pulvanor_job {
    size_t tasks;
    struct pulvanor_platform platform;
    uint32_t weights[PULVANOR_TASKS];
};

/* What a run has counted, in ticks. */
struct pulvanor_sums {
    uint64_t kept;
    uint64_t redone;
    uint64_t verify;
    uint64_t saves;
    uint64_t recovery;
};

/* Where a run stands: after so many tasks, and whether the verification there is awaited. Any byte that is not
   0 says that it is. An accepted event writes 0 or 1; where no event is accepted, the byte given comes back. */
struct pulvanor_place {
    size_t position;
    uint8_t awaiting;
    struct pulvanor_sums sums;
};

/* The state of a run. Marks past task n are 0 in a fresh run and never read. */
struct pulvanor_run {
    struct pulvanor_job job;
    uint8_t marks[PULVANOR_TASKS];
    struct pulvanor_place place;
};

/* A start: 0 and the fresh run, or a refusal and a state with every field 0.
   A log: 0 and the state after its records, or a refusal and the state given. */
struct pulvanor_outcome {
    uint64_t number;
    struct pulvanor_run run;
};

/* A name and the place that it has. */
struct pulvanor_held {
    uint8_t name;
    struct pulvanor_place place;
};

/* The names that are held: the first `count` entries, in the order of their first naming. Entries past them are
   never read, and stay as they are; a drop clears the one that it frees. */
struct pulvanor_names {
    size_t count;
    struct pulvanor_held entries[PULVANOR_NAMES];
};

/* A run with its names, which are of this one run: its sheet and its marks. A started run beside a count of 0
   holds no name. */
struct pulvanor_named_run {
    struct pulvanor_run run;
    struct pulvanor_names names;
};

/* 0 and the state after the call, or a refusal and the state given. */
struct pulvanor_named_outcome {
    uint64_t number;
    struct pulvanor_named_run state;
};

/* G(y) and H(y) of document 01 with request 103, in units of 2^-24: at least 2^24 times the exact sum of the 33
   series terms, and less than 2 above it; 0 for y above 2^26, which no sum equals. */
uint64_t pulvanor_growth(uint64_t y);
uint64_t pulvanor_mean_growth(uint64_t y);

/* The section of this kind, 1 (platform) or 2 (weights). Refusals 1 to 6; any other kind is refused by 6, after
   1 to 5 and 28. */
struct pulvanor_found pulvanor_lookup(const uint8_t *sheet, size_t sheet_length, uint64_t kind);

/* Two chains joined: the first `length` bytes of the buffer are one sheet, with the first sheet's weights, then
   the second's, and the platform that both have. It is of form 1, the platform at 20, the weights at 49, without
   gaps, 50 bytes and 4 for each task (PULVANOR_SHEET bytes always hold it), and every call accepts it as a
   sheet. Refusals 1 to 8 of the first sheet, then 1 to 8 of the second, then 26 (one of the seven platform
   fields differs), 3 (more than 64 tasks together), 7 (a total above 2^30) and 11 (the buffer is shorter than
   the sheet). The number does not say which sheet is meant: pulvanor_plan tells it of each. A refusal writes no
   byte, and later bytes are never touched. Nothing is said of the least time of the whole from those of the two
   parts, since a recovery at the seam has a cost: plan the joined sheet. */
struct pulvanor_joined pulvanor_join(const uint8_t *first, size_t first_length, const uint8_t *second, size_t second_length, uint8_t *buffer, size_t buffer_length);

/* The time of the sheet under these marks, D(n) of document 01 with requests 102 (a recovery from disk costs
   R_D + R_M, and 0 at the start) and 103 (the growth sums above). Refusals 1 to 10 and 13. */
struct pulvanor_answer pulvanor_price(const uint8_t *sheet, size_t sheet_length, const uint8_t *marks, size_t marks_length);

/* The least time of all allowed settings of the sheet; the setting's marks, one byte a task, are the first n
   bytes of the buffer. Of settings that take as long it is the first in this order: list the positions with
   mark 3 from the last task down, then 0; at the first difference the setting with the earlier position comes
   first. Where these lists agree, the same with marks 2 and 3, then with marks 1, 2 and 3. Refusals 1 to 8, 11
   (the buffer is shorter than n) and 13 (every allowed setting is too slow). A refusal writes no byte, and later
   bytes are never touched.

   Of two sheets that differ in costs alone (cd, cm, v, rd, rm), none of them less in the second, with any two
   buffers that hold the marks, this is known of the averages: of two times the second is not less; where the first
   gets 13 so does the second, if 1 to 7 do not refuse it; and where the second gets a time so does the first,
   if 1 to 6 do not refuse it. The same holds of pulvanor_price under the same marks, of pulvanor_printed, and,
   of the energies and not of the times of their marks, of pulvanor_energy by the same powers, where 29 does not
   refuse the second. It does not hold of rates and weights. */
struct pulvanor_answer pulvanor_plan(const uint8_t *sheet, size_t sheet_length, uint8_t *buffer, size_t buffer_length);

/* The same by energy: `computing` is the power at which computing and verifying are billed, `saving` that of
   saving and recovering, and `time` in the answer is the least energy of all allowed settings, in ticks times
   units of power. The work of a stretch, with what fail-stop errors add to it, and V cost the first power a
   tick; C_M, C_D and recoveries (R_M, or R_D + R_M from disk, and nothing at the start) the second. The unit
   of power is the caller's, as a tick is. The same settings are allowed as for pulvanor_plan, and by the
   powers 1 and 1 number, figure and every byte of the buffer are those of pulvanor_plan. Refusals 1 to 8, 29
   (a power is not 1 to 16, or a product above 2^30: the total weight or V with the first power, C_D, C_M, R_D
   or R_M with the second), 11 and 13 (every allowed setting takes more than 2^34 - 1 in energy), in this order.
   Every value of a power is taken. Of settings that take as much it is the first in the order of pulvanor_plan.
   pulvanor_price never refuses its marks on the same sheet, and their time is at most the energy. A refusal
   writes no byte, and later bytes are never touched. */
struct pulvanor_answer pulvanor_energy(const uint8_t *sheet, size_t sheet_length, uint64_t computing, uint64_t saving, uint8_t *buffer, size_t buffer_length);

/* The plan by the equations of section 3.1 of source document 000 as printed, which ask each other and keep
   nothing. Refusals 1 to 8, 27 (more than 8 tasks), 11 and 13, in this order. But for 27 the number, the time
   and every byte of the buffer are those of pulvanor_plan; a refusal, 27 too, has time 0 and writes no byte.
   The work grows more than threefold with each task, to some 10 milliseconds for 8. */
struct pulvanor_answer pulvanor_printed(const uint8_t *sheet, size_t sheet_length, uint8_t *buffer, size_t buffer_length);

/* The fresh run of the sheet under these marks. Refusals 1 to 10. */
struct pulvanor_outcome pulvanor_start(const uint8_t *sheet, size_t sheet_length, const uint8_t *marks, size_t marks_length);

/* The records of a log, read and applied in turn from the state given; one record is one event. A record is a
   code (1 Done, 2 Passed, 3 Failed, 4 Stopped), then the lost ticks, 4 bytes, lowest first, 0 except for code
   4. Failed adds R_M to the recovery and Stopped R_D + R_M, but 0 where the run goes back to the start.
   A node that stops during a verification or a copy is outside the model: Failed, then Stopped with 0 lost
   ticks, keeps the place right and counts one V and one R_M (0 at the start) more.
   Refusals 12 and 21 to 25; the first of them hands back the state given. 21 is tested even for an empty
   log. */
struct pulvanor_outcome pulvanor_follow(struct pulvanor_run run, const uint8_t *log, size_t log_length);

/* Named places in a run. Naming holds the present place (position, awaited verification, five sums) under a name;
   a name that is held already gets this place in place of its own. Returning puts the run back to the place of a
   name, and later events count from there; the names stay as they are. Dropping forgets a name. All three work at
   every position, in a finished run too.
   21 comes first: of a state that breaks a rule of pulvanor_follow, has more than 16 names or one name twice, or
   has a held place that breaks a rule for position, awaited verification or sums. Then 31 for a new name while 16
   are held, and 30 for a drop of, or a return to, a name that is not held. */
struct pulvanor_named_outcome pulvanor_name(struct pulvanor_named_run state, uint8_t name);
struct pulvanor_named_outcome pulvanor_drop(struct pulvanor_named_run state, uint8_t name);
struct pulvanor_named_outcome pulvanor_return(struct pulvanor_named_run state, uint8_t name);

/* pulvanor_follow from a run with names, which it leaves as they are: the same refusals in the same order, 21 as
   above. */
struct pulvanor_named_outcome pulvanor_follow_named(struct pulvanor_named_run state, const uint8_t *log, size_t log_length);

#ifdef __cplusplus
}
#endif

#endif
