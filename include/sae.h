/* The SAE peer engine: peer table, states, timers, tokens, and the bodies of Authentication frames.
 *
 * The engine keeps nothing of its own and allocates nothing. All it works on is lent for the time of a call: the table, which lives in
 * memory of the host from one call to the next, and the octets that a call reads or writes. Two calls on one table must not run at the
 * same time; calls on different tables may.
 *
 * Every function returns 0, or the number of the refusal (enum sae_refusal). The causes of a call are tested in the order in which its
 * comment names them, which is that of their numbers but for the two moves (sae_widen, sae_narrow), where 1 comes last; the first one that
 * holds is returned. After a refusal every lent octet is as it was: table, answer, written, out, parts, milliseconds, offset, good and
 * target. No argument makes a call undefined, but for the rules of C: a pointer is not null, also where its length is 0 (nothing is read
 * there, but it may not be null), and points to as many octets as the length says; nothing that a call may write overlaps anything else
 * that is lent to it (what has length 0 overlaps nothing). No alignment is asked of octets; `written`, `milliseconds`, `offset` and `good`
 * are uint32_t.
 *
 * Fields of more than one octet are little-endian everywhere. Addresses are six octets, first octet first.
 */
#ifndef SAE_H
#define SAE_H

#include <stddef.h>
#include <stdint.h>

#ifdef __cplusplus
extern "C" {
#endif

/* The version of this interface. The first number rises when a host must be looked at again: a call's arguments, a layout or what a call
 * does has changed. The second rises when calls or names were added. */
#define SAE_VERSION_MAJOR 4
#define SAE_VERSION_MINOR 1

/* Lengths, in octets. */
#define SAE_ADDRESS_LEN 6
#define SAE_SETTINGS_LEN 16
#define SAE_ANSWER_LEN 28
#define SAE_PARTS_LEN 20
#define SAE_EXPECTED_LEN 32 /* the token that the host expects from a sender */
#define SAE_VALUE_LEN 32    /* the value of a Confirm */
#define SAE_TOKEN_LEN 256   /* the longest token */
#define SAE_FRAME_LEN 462   /* the longest frame body that the writers write */
#define SAE_BODY_LEN 2304   /* the longest frame body that is read; the shortest has 6 */
#define SAE_HEADER_LEN 32

/* The two forms of a table, each named by the octets of a record. sae_initialize makes SAE_WIDE, which has room for group 21. A table of
 * SAE_NARROW, as earlier versions made it, is served as before. Which form a table has is told by SAE_HEADER_RECORD_SIZE alone: a
 * table of 4,352 octets may have five slots of SAE_NARROW or four of SAE_WIDE. A table with another record size is of no form, refusal 2.
 * `form` is SAE_NARROW, SAE_WIDE or what that field says, in all that follows. A table of either form that was last served by a version
 * before 4.0 has 0 as its number of good links: if it has some, it is not of its form until sae_fill has been called on it, once.
 * sae_widen and sae_narrow move a table from one form to the other with all that it holds. */
#define SAE_NARROW 864
#define SAE_WIDE 1080

#define SAE_COMMIT_LEN(form) ((form) == SAE_NARROW ? 144 : 198) /* a stored commit: scalar, element, zeros behind a shorter one */
#define SAE_MAX_SLOTS(form) ((form) == SAE_NARROW ? 64 : 60)    /* records of a table; the least is 1 */
#define SAE_MAX_GROUPS(form) ((form) == SAE_NARROW ? 2 : 3)     /* groups of a list; the least is 1 */

/* The length of a table with so many slots, and of the fresh commits for so many groups. */
#define SAE_TABLE_LEN(form, slots) (SAE_HEADER_LEN + (size_t)(form) * (slots))
#define SAE_FRESH_LEN(form, groups) ((size_t)SAE_COMMIT_LEN(form) * (groups))

/* Groups: 19 has a scalar of 32 octets and an element of 64, 20 of 48 and 96, 21 of 66 and 132. SAE_NARROW has no room for 21: a printer
 * with such a table, or one that does not list 21, answers it as any group that it does not list. */
#define SAE_GROUP_19 19
#define SAE_GROUP_20 20
#define SAE_GROUP_21 21

/* Frames. */
#define SAE_COMMIT 1                /* sequence */
#define SAE_CONFIRM 2               /* sequence */
#define SAE_TOKEN_REQUIRED 76       /* status of a Commit */
#define SAE_GROUP_REFUSED 77        /* status of a Commit */
#define SAE_LINK_COUNTER 65535      /* the counter of a Confirm that a link answers with */

/* Times, in milliseconds. */
#define SAE_LINK_MS 86400000        /* a link lasts so long after it was accepted */
#define SAE_NO_DEADLINE 0xffffffffu /* sae_next_deadline: the table has none */

/* The event in an answer. */
enum sae_event {
    SAE_EVENT_NONE = 0,
    SAE_EVENT_ACCEPTED = 1,  /* the run became the finished link with this address */
    SAE_EVENT_ABANDONED = 2, /* the run with this address was given up */
    SAE_EVENT_LINK_ENDED = 3 /* the finished link with this address ended */
};

/* What the functions return. */
enum sae_refusal {
    SAE_DONE = 0,
    SAE_REFUSED_SETTINGS = 1,  /* settings, own address or the table's length wrong; of a move, the target's length */
    SAE_REFUSED_TABLE = 2,     /* the table is not of its form, or a move's source not of the form that it moves from */
    SAE_REFUSED_ADDRESS = 3,   /* the address is not usable: a group's, zero, or our own */
    SAE_REFUSED_FRESH = 4,     /* length or tail of the fresh commits wrong */
    SAE_REFUSED_EXPECTED = 5,  /* the expected token is not 32 octets */
    SAE_REFUSED_VERIFIED = 6,  /* the verdict is above 1 */
    SAE_REFUSED_BODY = 7,      /* the frame body is not of the shapes */
    SAE_REFUSED_RUN = 8,       /* a run with this address is in being */
    SAE_REFUSED_FULL = 9,      /* a new record is needed and no slot is free */
    SAE_REFUSED_NO_RECORD = 10, /* the address has no record */
    SAE_REFUSED_BUFFER = 11,   /* the frame is longer than the out buffer */
    SAE_REFUSED_SLOTS = 15,    /* more slots than a table of SAE_WIDE can have */
    SAE_REFUSED_GROUP = 16     /* group 21 is listed, for which SAE_NARROW has no room */
};

/* Settings, 16 octets. Octets 1 and 13-15 are 0. sae_initialize stores them as they are given, a 0 as a 0. */
#define SAE_SETTINGS_COUNT 0       /* 1 octet: number of groups, 1 to 3 */
#define SAE_SETTINGS_GROUPS 2      /* 2 octets each, three: 19, 20 or 21, each once, the most preferred first; 0 past their number */
#define SAE_SETTINGS_THRESHOLD 8   /* 2 octets, 0 to 64: with so many runs open a Commit of a peer without one needs the expected token */
#define SAE_SETTINGS_PERIOD 10     /* 2 octets, 10 to 1,000 milliseconds, or 0 for SAE_FACTORY_PERIOD: the first retry of a run comes after
                                      it, each further one after twice the time before */
#define SAE_SETTINGS_SYNC_LIMIT 12 /* 1 octet, 1 to 10, or 0 for SAE_FACTORY_SYNC_LIMIT: a run whose Sync is above it is given up instead of
                                      repeated, and a Confirm then ends a link */

/* Factory settings: as an initializer of the 16 octets, and number by number. */
#define SAE_FACTORY_SETTINGS {2, 0, SAE_GROUP_19, 0, SAE_GROUP_20, 0, 0, 0, SAE_FACTORY_THRESHOLD, 0, SAE_FACTORY_PERIOD, 0, \
                              SAE_FACTORY_SYNC_LIMIT, 0, 0, 0}
#define SAE_FACTORY_THRESHOLD 5
#define SAE_FACTORY_PERIOD 40
#define SAE_FACTORY_SYNC_LIMIT 5

/* Answer, 28 octets. Octet 11 is 0. */
#define SAE_ANSWER_NONE_DUE 0              /* 1 octet: 1 if no deadline is due (sae_expire; all else is 0 then), else 0 */
#define SAE_ANSWER_EVENT 1                 /* 1 octet (enum sae_event) */
#define SAE_ANSWER_FRESH 2                 /* 2 octets: the group whose fresh commit was used, or 0 */
#define SAE_ANSWER_ADDRESS 4               /* 6 octets: the address that the answer is about; frames go to it */
#define SAE_ANSWER_COUNT 10                /* 1 octet: number of frames to send, 0 to 2, in the order of their places: */
#define SAE_ANSWER_FRAME(i) (12 + 8 * (i)) /* 8 octets: frame i, from 0; zeros if there is none */

/* A frame in an answer, from SAE_ANSWER_FRAME(i) on, 2 octets each. A Commit has counter 0 and a Confirm has group 0. sae_write_record
 * writes a frame of status 0, sae_write_parts one of status 76 (its token is the expected token of the call) or 77. Write the frames
 * before the next call on this table; if it is moved before that, from the target. */
#define SAE_ENTRY_SEQUENCE 0
#define SAE_ENTRY_STATUS 2
#define SAE_ENTRY_GROUP 4
#define SAE_ENTRY_COUNTER 6

/* Parts, 20 octets: what sae_read finds in a body. What a body does not have is 0. */
#define SAE_PARTS_SEQUENCE 0      /* 2 octets */
#define SAE_PARTS_STATUS 2        /* 2 octets */
#define SAE_PARTS_GROUP 4         /* 2 octets */
#define SAE_PARTS_COUNTER 6       /* 2 octets */
#define SAE_PARTS_TOKEN_AT 8      /* 4 octets: offset of the token, 8 in a Commit of a listed group also if the token is empty */
#define SAE_PARTS_TOKEN_LENGTH 12 /* 4 octets */
#define SAE_PARTS_REST_AT 16      /* 4 octets: offset of the scalar (the element follows it), or of a Confirm's value */

/* Of a status 0 Confirm octets 8 to 15 say where the whole elements behind its 40 octets stand: each is an identifier octet, a length octet
 * and so many octets of contents, and the last one ends with the body. The engine looks at nothing in them, and they are no token: the
 * writers write none. */
#define SAE_PARTS_ELEMENTS_AT 8      /* 4 octets: 40, also if nothing follows */
#define SAE_PARTS_ELEMENTS_LENGTH 12 /* 4 octets: 0 to 2,264 */

/* Fresh commits, SAE_COMMIT_LEN(form) octets for each listed group in the order of the list: scalar, element, zeros. Made by the chip and
 * never used before. If the answer names a group (SAE_ANSWER_FRESH), that one is used up and never offered again; the others may be. */

/* Where things stand in the header. The host may look into the table between calls; only the engine writes it. Octets 10-11 are 0. */
#define SAE_HEADER_SLOTS 0        /* 2 octets: records, free ones too */
#define SAE_HEADER_USED 2         /* 2 octets: records in use */
#define SAE_HEADER_OPEN 4         /* 2 octets: records with a run */
#define SAE_HEADER_RECORD_SIZE 6  /* 2 octets: the form, SAE_NARROW or SAE_WIDE */
#define SAE_HEADER_FIRST 8        /* 2 octets: offset of the first record, 32 */
#define SAE_HEADER_GOOD 12        /* 2 octets: good links, the records with a finished link whose mark is 0; 0 in tables of before 4.0 */
#define SAE_HEADER_PERIOD 14      /* 2 octets: as in the settings, 0 for the factory's, in both forms */
#define SAE_HEADER_OWN 16         /* 6 octets: own address */
#define SAE_HEADER_COUNT 22       /* 1 octet: number of groups */
#define SAE_HEADER_SYNC_LIMIT 23  /* 1 octet: as in the settings, 0 for the factory's, in both forms */
#define SAE_HEADER_GROUPS 24      /* 2 octets each: the first two groups, 0 past their number */
#define SAE_HEADER_THRESHOLD 28   /* 2 octets */
#define SAE_HEADER_THIRD_GROUP 30 /* 2 octets: the third group, 0 if there is none; always 0 in SAE_NARROW */

/* The state of a run. */
enum sae_run_state {
    SAE_RUN_NOTHING = 0, /* there is no run */
    SAE_RUN_COMMITTED = 1,
    SAE_RUN_CONFIRMED = 2
};

/* Where things stand in record i, which starts at SAE_RECORD_AT(form, i); sae_find says where an address's record starts. The host hands
 * the chip the pair of a run or a link from here. A free slot is all zeros. Up to the run's own commit both forms are the same; a commit
 * has SAE_COMMIT_LEN(form) octets, and what stands behind it moves up. */
#define SAE_RECORD_AT(form, i) (SAE_HEADER_LEN + (size_t)(form) * (i))
#define SAE_RECORD_IN_USE 0        /* 1 octet, 0 or 1 */
#define SAE_RECORD_ADDRESS 1       /* 6 octets */
#define SAE_RECORD_STATE 7         /* 1 octet (enum sae_run_state) */
#define SAE_RECORD_SYNC 8          /* 1 octet: the run's repeats since it began or, once its pair is formed, since then; to limit + 1 */
#define SAE_RECORD_REJECTED 9      /* 1 octet: bit i is set if the peer refused the i-th listed group, from 0 */
#define SAE_RECORD_SC 10           /* 2 octets: the counter of the run's last Confirm */
#define SAE_RECORD_GROUP 12        /* 2 octets: the run's group */
#define SAE_RECORD_TOKEN_LENGTH 14 /* 2 octets: of the token that its Commits carry */
#define SAE_RECORD_T0 16           /* 4 octets: the run's deadline */
#define SAE_RECORD_OWN 20          /* a commit: the run's own */

/* What stands behind it, with its offset in SAE_NARROW and in SAE_WIDE. */
#define SAE_RECORD_PEER(form) (SAE_RECORD_OWN + SAE_COMMIT_LEN(form)) /* 164, 218: a commit, the run's other one, from Confirmed on */
#define SAE_RECORD_TOKEN(form) (SAE_RECORD_PEER(form) + SAE_COMMIT_LEN(form)) /* 308, 416: 256 octets, zero past the token */
#define SAE_RECORD_LINK(form) (SAE_RECORD_TOKEN(form) + SAE_TOKEN_LEN) /* 564, 672: 1 octet, finished link, 0 or 1 */
#define SAE_RECORD_SUPERSEDED(form) (SAE_RECORD_LINK(form) + 1) /* 565, 673: 1 octet, the link's mark, 1 if a pair was formed since */
#define SAE_RECORD_LINK_SYNC(form) (SAE_RECORD_LINK(form) + 2) /* 566, 674: 1 octet, to limit + 1 */
#define SAE_RECORD_LINK_GROUP(form) (SAE_RECORD_LINK(form) + 4) /* 568, 676: 2 octets */
#define SAE_RECORD_RC(form) (SAE_RECORD_LINK(form) + 6) /* 570, 678: 2 octets, the counter last taken */
#define SAE_RECORD_T1(form) (SAE_RECORD_LINK(form) + 8) /* 572, 680: 4 octets, the link's deadline */
#define SAE_RECORD_LINK_OWN(form) (SAE_RECORD_LINK(form) + 12) /* 576, 684: a commit */
#define SAE_RECORD_LINK_PEER(form) (SAE_RECORD_LINK_OWN(form) + SAE_COMMIT_LEN(form)) /* 720, 882: a commit */

/* Sets up a table of the form SAE_WIDE, and clears what it held.
 *
 * table, table_len   SAE_TABLE_LEN(SAE_WIDE, slots) octets of any content, slots from 1 to SAE_MAX_SLOTS(SAE_WIDE)
 * own                the own address: an individual one, not zero
 * settings           as above
 * answer             no event, no frames, the own address
 *
 * Refuses 1. */
uint32_t sae_initialize(uint8_t *table, size_t table_len, const uint8_t own[6], const uint8_t settings[16], uint8_t answer[28]);

/* Starts a run with a peer: its Commit in the most preferred group is to be sent. A finished link with it stays.
 *
 * table, table_len   a table that sae_initialize set up, one of the form SAE_NARROW, or one that was moved
 * address            the peer
 * now                the clock's reading in milliseconds; it may wrap
 * fresh, fresh_len   fresh commits, SAE_FRESH_LEN(form, groups) octets: the table's form, and as many groups as it lists
 * answer             one Commit to send; its group is the group used
 *
 * Refuses 2, 3, 4, 8 and 9. */
uint32_t sae_initiate(uint8_t *table, size_t table_len, const uint8_t address[6], uint32_t now, const uint8_t *fresh, size_t fresh_len,
                      uint8_t answer[28]);

/* Ends run and link with a peer and frees its record.
 *
 * address            the peer
 * answer             no event, no frames, the address
 *
 * Refuses 2, 3 and 10. */
uint32_t sae_kill(uint8_t *table, size_t table_len, const uint8_t address[6], uint8_t answer[28]);

/* Takes in a received Authentication frame of algorithm 3.
 *
 * address                 the sender
 * now                     the clock's reading in milliseconds
 * frame, frame_len        the frame's body
 * fresh, fresh_len        fresh commits, in case one is needed
 * expected, expected_len  the token of 32 octets that the host expects from this sender
 * verified                the chip's verdict, 0 or 1: whether a Commit's scalar and element are valid, or a Confirm's value is right for
 *                         its counter and the pair that it meets (the run's if it is Confirmed, the link's if there is no run); 0 for
 *                         other frames
 * answer                  event, frames to send, group used; a frame that is dropped answers none of them, and leaves every octet of
 *                         the table
 *
 * Refuses 2, 3, 4, 5, 6, 7 and 9. */
uint32_t sae_receive(uint8_t *table, size_t table_len, const uint8_t address[6], uint32_t now, const uint8_t *frame, size_t frame_len,
                     const uint8_t *fresh, size_t fresh_len, const uint8_t *expected, size_t expected_len, uint8_t verified,
                     uint8_t answer[28]);

/* Serves one deadline that is due: the lowest slot's, the retry of a run (t0) before the end of a link (t1). To be called until octet
 * SAE_ANSWER_NONE_DUE of the answer is 1.
 *
 * now                the clock's reading in milliseconds
 * answer             event and frames to send, or SAE_ANSWER_NONE_DUE is 1 if none is due
 *
 * Refuses 2. */
uint32_t sae_expire(uint8_t *table, size_t table_len, uint32_t now, uint8_t answer[28]);

/* Writes a frame from its parts.
 *
 * sequence, status   1 and 0, 1 and 76, 1 and 77, or 2 and 0
 * group              of a Commit; of one with status 0 a listed group. 0 for a Confirm
 * counter            of a Confirm. 0 for a Commit
 * token, token_len   0 to 256 octets for status 0, 1 to 256 for status 76, else none
 * rest, rest_len     scalar and element for a Commit of status 0, 32 octets of value for a Confirm, else none
 * out, out_len       the buffer; octets past the frame are not touched
 * written            the frame's length
 *
 * Refuses 2, 7 and 11. */
uint32_t sae_write_parts(const uint8_t *table, size_t table_len, uint16_t sequence, uint16_t status, uint16_t group, uint16_t counter,
                         const uint8_t *token, size_t token_len, const uint8_t *rest, size_t rest_len, uint8_t *out, size_t out_len,
                         uint32_t *written);

/* Writes a frame of a peer's record.
 *
 * address            the peer
 * sequence           1: the Commit of its run, with the stored token. 2: the Confirm of its run in Confirmed, with its counter, or of its
 *                    link if it has no run, with counter 65,535
 * value, value_len   the Confirm's value from the chip, 32 octets; for a Commit it is not looked at
 * out, out_len       the buffer; octets past the frame are not touched
 * written            the frame's length
 *
 * Refuses 2, 3, 7 (no record, no such frame, another sequence, a value of another length) and 11. */
uint32_t sae_write_record(const uint8_t *table, size_t table_len, const uint8_t address[6], uint16_t sequence, const uint8_t *value,
                          size_t value_len, uint8_t *out, size_t out_len, uint32_t *written);

/* Reads a frame body with the table's list of groups.
 *
 * frame, frame_len   the body
 * parts              as above
 *
 * Refuses 2 and 7. */
uint32_t sae_read(const uint8_t *table, size_t table_len, const uint8_t *frame, size_t frame_len, uint8_t parts[20]);

/* Says how long the clock may rest: the time from now until the table's earliest deadline, t0 of a run or t1 of a link.
 *
 * now                the clock's reading in milliseconds
 * milliseconds       0 if a deadline is due (sae_expire has something to serve), SAE_NO_DEADLINE if the table has none, else 1 to 2^31:
 *                    sae_expire has nothing to serve until then, and something then, if no other call changes the table
 *
 * Refuses 2. */
uint32_t sae_next_deadline(const uint8_t *table, size_t table_len, uint32_t now, uint32_t *milliseconds);

/* Says where an address's record lies in the table.
 *
 * address            the peer
 * offset             where its record starts, or 0 if it has none; it stays there until it is freed or the table is moved to the other form
 *
 * Refuses 2 and 3. */
uint32_t sae_find(const uint8_t *table, size_t table_len, const uint8_t address[6], uint32_t *offset);

/* Says how many good links a table has, from its header alone: finished links whose mark (SAE_RECORD_SUPERSEDED) is 0. It takes no longer
 * for a larger table.
 *
 * header, header_len   the 32 octets that a table begins with, or a copy of them, which may be asked while a call on the table runs
 * good                 the number. Of a table that is of its form it is the count over all records
 *
 * Refuses 2: header_len is not 32, or no table of its form begins with these octets. The records are not looked at, so that a table whose
 * header is answered for may still be refused 2 by the other calls. */
uint32_t sae_good_links(const uint8_t *header, size_t header_len, uint32_t *good);

/* Puts the number of good links into a table, whatever stood there: for a table of before version 4.0. The other calls keep it.
 *
 * table, table_len   a table that is of its form but for SAE_HEADER_GOOD; if that is right already, nothing changes
 *
 * Refuses 2: the table is not of its form elsewhere. */
uint32_t sae_fill(uint8_t *table, size_t table_len);

/* Moves a table of the form SAE_NARROW to SAE_WIDE, with all that it holds: runs, links, marks, tokens, deadlines, settings. Each record
 * keeps the number of its slot, and each commit gets zeros behind it. From then on the target is the table, with fresh commits in parts
 * of its own width, and the source is not used on. Further calls, but for sae_initialize and moves, answer as they would have on the
 * source; only the offset that sae_find gives is another, that of the same slot in this form. sae_narrow gives the source's octets again.
 *
 * source, source_len   the table, which is only read
 * target, target_len   SAE_TABLE_LEN(SAE_WIDE, slots) octets of any content, slots being the source's; they do not overlap the source
 *
 * Refuses 2 (the source is not of its form, or of the form SAE_WIDE), 15 (it has more than SAE_MAX_SLOTS(SAE_WIDE) slots, free ones too)
 * and 1 (the target has another length), tested in this order. */
uint32_t sae_widen(const uint8_t *source, size_t source_len, uint8_t *target, size_t target_len);

/* Moves a table of the form SAE_WIDE that does not list group 21 to SAE_NARROW: the way back of sae_widen. Each commit loses the zeros
 * that have no room. All else is as said there, and sae_widen gives the source's octets again.
 *
 * source, source_len   the table, which is only read
 * target, target_len   SAE_TABLE_LEN(SAE_NARROW, slots) octets of any content, slots being the source's; they do not overlap the source
 *
 * Refuses 2 (the source is not of its form, or of the form SAE_NARROW), 16 (it lists group 21, used or not) and 1 (the target has another
 * length), tested in this order. */
uint32_t sae_narrow(const uint8_t *source, size_t source_len, uint8_t *target, size_t target_len);

#ifdef __cplusplus
}
#endif

#endif
