/* The library libospf: an OSPFv2 area, computed from its LSAs.
 *
 * Each call answers as a command of the program ospfd does, byte for byte. It takes bytes (LSAs are
 * a text with a line of hexadecimal digits for each) and numbers (a Router ID or an address is one
 * of 32 bits: 10.0.0.1 is 0x0a000001). It writes its answer into `room`: first the text that ospfd
 * prints on standard output, then the warnings that it prints on standard error. `answer` says how
 * long both are, and the status with which ospfd ends.
 *
 * If `room` is too small, nothing is written there, and the sizes say how much the call needs: call
 * again with that much. A call keeps nothing, so several threads may call at the same time. A
 * pointer may be any pointer but NULL where its size is 0.
 *
 * docs/LIBRARY.md says how to build and link the library, and what of it is proved.
 */
#ifndef OSPF_H
#define OSPF_H

#include <stdbool.h>
#include <stddef.h>
#include <stdint.h>

#ifdef __cplusplus
extern "C" {
#endif

/* What a call says of its answer. */
struct ospf_answer {
    size_t text;     /* bytes of the text */
    size_t warnings; /* bytes of the warnings, which follow it */
    uint8_t status;  /* one of enum ospf_status */
};

enum ospf_status {
    OSPF_DONE = 0,
    OSPF_UNMET = 1,   /* ospf_diff: a route is lost; ospf_sim: an expectation is not met;
                         ospf_failures_at, if it is strict: a prefix is cut off, or the router is
                         not listed */
    OSPF_WORDS = 2,   /* a word names nothing in the area */
    OSPF_REFUSED = 3, /* a line or a file is refused; the warnings say why */
    OSPF_MEMORY = 4,  /* memory ran out */
    OSPF_STREAM = 5   /* never with memory that can be read and written */
};

/* A file and what it holds. */
struct ospf_file {
    const uint8_t *name;
    size_t name_size;
    const uint8_t *text;
    size_t text_size;
};

/* `ospfd table ROOT ADDRESS..` */
void ospf_table(const uint8_t *lsas, size_t lsas_size, uint32_t root, const uint32_t *addresses,
                size_t addresses_count, uint8_t *room, size_t room_size,
                struct ospf_answer *answer);

/* `ospfd table --json ROOT` */
void ospf_table_json(const uint8_t *lsas, size_t lsas_size, uint32_t root, uint8_t *room,
                     size_t room_size, struct ospf_answer *answer);

/* `ospfd table all`, or with `json` `ospfd table --json all` */
void ospf_tables(const uint8_t *lsas, size_t lsas_size, bool json, uint8_t *room,
                 size_t room_size, struct ospf_answer *answer);

/* `ospfd lsas`, or with `json` `ospfd lsas --json` */
void ospf_lsas(const uint8_t *lsas, size_t lsas_size, bool json, uint8_t *room, size_t room_size,
               struct ospf_answer *answer);

/* `ospfd lsas --dot` */
void ospf_dot(const uint8_t *lsas, size_t lsas_size, uint8_t *room, size_t room_size,
              struct ospf_answer *answer);

/* `ospfd path FROM ADDRESS CHOICE..` */
void ospf_path(const uint8_t *lsas, size_t lsas_size, uint32_t from, uint32_t address,
               const uint32_t *choices, size_t choices_count, uint8_t *room, size_t room_size,
               struct ospf_answer *answer);

/* `ospfd edit`: each of the three texts has a word on each line, as after --down, --cost and
 * --drain. */
void ospf_edit(const uint8_t *lsas, size_t lsas_size, const uint8_t *down, size_t down_size,
               const uint8_t *costs, size_t costs_size, const uint8_t *drains, size_t drains_size,
               uint8_t *room, size_t room_size, struct ospf_answer *answer);

/* `ospfd diff before after` */
void ospf_diff(const uint8_t *before, size_t before_size, const uint8_t *after, size_t after_size,
               uint8_t *room, size_t room_size, struct ospf_answer *answer);

/* `ospfd diff --root ROOT before after` */
void ospf_diff_at(const uint8_t *before, size_t before_size, const uint8_t *after,
                  size_t after_size, uint32_t root, uint8_t *room, size_t room_size,
                  struct ospf_answer *answer);

/* How failures are printed, and what fails together. */
struct ospf_how {
    uint8_t form;    /* one of enum ospf_form */
    uint8_t carrier; /* one of enum ospf_carrier */
    bool each;       /* as with --each: each changed prefix */
    bool strict;     /* as with --strict: the status is OSPF_UNMET where a prefix is cut off */
};

enum ospf_form {
    OSPF_TEXT = 0,
    OSPF_HARM = 1,  /* as with --harm */
    OSPF_JSON = 2,  /* as with --json */
    OSPF_JSON_2 = 3 /* as with --json=2 */
};

enum ospf_carrier {
    OSPF_PROCESS = 0, /* as with --carrier process */
    OSPF_SWITCH = 1,  /* as with --carrier switch */
    OSPF_DIRECT = 2   /* as with --carrier direct */
};

/* `ospfd failures ROOT`, with the options that `how` says */
void ospf_failures_at(const uint8_t *lsas, size_t lsas_size, uint32_t root,
                      const struct ospf_how *how, uint8_t *room, size_t room_size,
                      struct ospf_answer *answer);

/* `ospfd check FILE..`: `how` is 0 for the verdicts, 1 as with --explain, 2 as with --all */
void ospf_check(const struct ospf_file *files, size_t files_count, uint8_t how, uint8_t *room,
                size_t room_size, struct ospf_answer *answer);

/* `ospfd check --area FILE..` */
void ospf_check_area(const struct ospf_file *files, size_t files_count, uint8_t how,
                     uint8_t *room, size_t room_size, struct ospf_answer *answer);

/* `ospfd sim SCRIPT CONFIG..`, or with `strict` as with --strict */
void ospf_sim(const uint8_t *script, size_t script_size, const struct ospf_file *files,
              size_t files_count, bool strict, uint8_t *room, size_t room_size,
              struct ospf_answer *answer);

#ifdef __cplusplus
}
#endif

#endif
