/* hurfaith.h: a gateway of the spares forecast, for C. Link with libhurfaith.a.
 *
 * Memory. A gateway is the bytes of `memory` and nothing else. The library keeps nothing between calls, allocates nothing and does
 * no input or output. The caller owns `memory`, sets it up once by hurfaith_set_up, and hands the same bytes, unchanged, to every
 * later call of that gateway; it may move, copy, store and bring back the bytes between calls. It takes at least
 * 256 + 64 * queue_places + 32 * outstanding_places bytes; bytes past that are never written.
 *
 * Pointers. No pointer is null, even where its length is 0, and each points to as many elements as its length says. Parts of one
 * call may not overlap. `memory`, `out`, `list`, `frame` and `record` need no alignment; `neighbours` has that of uint16_t, `figures`
 * that of uint64_t.
 *
 * Threads. There are none, and no global state. Calls on different memories may run at once; calls on one memory may not.
 *
 * What is written. A call that is refused writes nothing, to `memory`, `out`, `neighbours` or `figures`. One that is accepted writes its
 * bytes to the front of `out`; the bytes of `out` behind them stay as they were. What hurfaith_work, hurfaith_take and hurfaith_start
 * write are frames for the carrier, one behind the other; what hurfaith_commit writes is the record of one event and is never carried,
 * nor is what hurfaith_view writes, which is for its reader. hurfaith_route and hurfaith_balance write numbers to the front of
 * `neighbours` and of `figures`, and no others.
 *
 * Numbers. Every call answers one of these:
 */
#ifndef HURFAITH_H
#define HURFAITH_H

#include <stddef.h>
#include <stdint.h>

#ifdef __cplusplus
extern "C" {
#endif

enum {
    /* Accepted. For work: all the events asked for are done. */
    HURFAITH_DONE = 0,
    /* Map, kind, sense or gateway fields are those of no frame, or the frame is one that this call does not take: a Restock by the
     * carrier; in an opening list all but plain Failure and Restock; for the lamp a frame without one; in a record all but plain
     * Failure, Request, Delivery and Restock. */
    HURFAITH_NO_FRAME = 1,
    /* A gateway number of N or more, or a frame that is addressed elsewhere. In a record: a gateway number of 255, whatever the
     * addressee. */
    HURFAITH_WRONG_GATEWAY = 2,
    /* An hour past the last hour. (Lvt and Update may say nothing due, 4,294,967,295.) In a record: the hour 4,294,967,295. */
    HURFAITH_PAST_LAST_HOUR = 3,
    /* A step of the round out of turn: the start call at another gateway than 0 or in an open round; a Start or Lvt twice, in the
     * wrong half of the round, or not from its arc; an Update not from the parent. */
    HURFAITH_OUT_OF_TURN = 4,
    /* Too few queue places, outstanding places or bytes of output for all that the call would do. The same call may be made again
     * once there is more room: an acknowledgment frees an outstanding place, commit a queue place. View: the whole record is good, and
     * the output is too short for all of the view. Route: fewer than four neighbours are lent. Balance: the whole record is good, and
     * fewer than three figures are lent. */
    HURFAITH_NO_ROOM = 5,
    /* Work: no unprocessed message. Commit: nothing to commit. */
    HURFAITH_NOTHING_TO_DO = 6,
    /* An acknowledgment that is equal to nothing outstanding. */
    HURFAITH_NOT_OUTSTANDING = 7,
    /* A setting, request, delivery and life hours among them, a routing number or, at set up, the length of the memory is outside its
     * range. View: a reader or an old_stock other than 0 and 1, or a record of 2^48 bytes or more. Balance: an opening stock above
     * 65,535, or such a record. */
    HURFAITH_OUT_OF_RANGE = 8,
    /* A plain message, a cancel or an Lvt below this gateway's agreed time. */
    HURFAITH_BELOW_AGREED_TIME = 9,
    /* The memory is not sound: too short for its settings, or settings (request, delivery and life hours among them), counts, phase or
     * arrivals impossible, the queue not in order, a processed message behind an unprocessed plain one, a waiting cancel beside an equal
     * plain message, a stored message of no valid form, number or hour, or a stock that comes to more than 33,619,455 with the Restocks
     * still to be done from it: from the stock held the unprocessed ones, from one saved before a processed message that one and those
     * behind it. No call answers 10 to memory that set up made and the other calls left. */
    HURFAITH_NOT_SOUND = 10,
    /* A frame of fewer than two bytes, or of another length than its map gives: cut, or with bytes too many. In a record also: fewer
     * than sixteen bytes of state behind a frame, and fewer than fourteen where the stock is the old one. */
    HURFAITH_WRONG_LENGTH = 11,
    /* A lamp with a byte outside 33 to 126. */
    HURFAITH_WRONG_LAMP = 12
};

/* 1, 11 and 12 are one test in seven steps, wherever a frame is read: fewer than two bytes 11, map and kind 1, length 11, sense 1, lamp
 * 12, gateway fields 1, a form that this call does not take 1. The first that fails is answered; 2 and 3 come behind all of them, and in
 * a record the 11 of a cut state behind 3.
 *
 * A map of 0 gives a length of one byte. An opening list and a record are cut by these lengths, so that there it is a frame of fewer
 * than two bytes, 11, whatever follows it. A frame that the carrier brings, or whose lamp is read, has the length that it has: with a
 * map of 0 and a byte more it is 1, since no kind has that map. */

/* The 64-bit answers hold three numbers. They never overlap: no call but hurfaith_view writes more than 14,364 bytes. For
 * hurfaith_agreed_time the third number is the hour, and no bytes are written. For hurfaith_lamp all that stands above the number is a
 * place: hurfaith_place; for hurfaith_view it is the count of bytes written, which hurfaith_written would cut: hurfaith_view_written. */
static inline uint32_t hurfaith_number(uint64_t answer) { return (uint32_t)(answer & 0xff); }
static inline uint32_t hurfaith_written(uint64_t answer) { return (uint32_t)(answer >> 8 & 0xffffff); }
static inline uint32_t hurfaith_count(uint64_t answer) { return (uint32_t)(answer >> 32); }
static inline size_t hurfaith_place(uint64_t answer) { return (size_t)(answer >> 8); }
static inline size_t hurfaith_view_written(uint64_t answer) { return (size_t)(answer >> 8); }

/* The gateway of that place among the neighbours is none. */
#define HURFAITH_NONE 65535

/* The gateways around gateway `own` of `gateways` (1 to 65,535): the two that it hears from in a round and the two that it tells, in
 * neighbours[0], [1] and [2], [3], HURFAITH_NONE where there is none. Elements behind these four stay as they were.
 * Answers 0, 8, or 5 where count is below 4. */
uint32_t hurfaith_route(uint32_t gateways, uint32_t own, uint16_t *neighbours, size_t count);

/* Makes a gateway of `memory`, whatever it held. `gateways` is N, 1 to 255; `own` and `supplier` are below N; `stock` is at most
 * 65,535; `last_hour` at most 4,294,967,294; queue_places and outstanding_places are 1 to 512. `list` is the opening list: whole
 * frames, one behind the other, plain Failure and Restock only, from and to this gateway; it may be empty. The agreed time is 0.
 * The list is cut by the lengths that the maps give; what is left over at its end is a cut frame.
 *
 * A Restock adds its quantity, at most 65,535, to the stock, which nothing stops: with an opening stock and 512 Restocks of the most it
 * comes to 33,619,455, and it never has more.
 *
 * request_hours, delivery_hours and life_hours are 1 to 1,000,000 each. They are this gateway's own, and other gateways of the forecast
 * may have others; what counts are those of the gateway that does a message:
 *
 *   request_hours     from a Failure here to its Request at the supplier, and from a Request that finds no stock here to the same
 *                     Request at the supplier
 *   delivery_hours    from a Request that finds stock here to its Delivery at the lamp's gateway
 *   life_hours        from a Delivery here to the next Failure of that lamp here
 *
 * A message that would come past last_hour is not sent.
 *
 * Answers 0; or 8; or 1, 11, 12, 2 or 3 of the first frame that is refused; or 5 where the list has more frames than there are queue
 * places. */
uint32_t hurfaith_set_up(uint8_t *memory, size_t memory_len, const uint8_t *list, size_t list_len,
    uint32_t gateways, uint32_t own, uint32_t supplier, uint32_t stock, uint32_t last_hour,
    uint32_t queue_places, uint32_t outstanding_places,
    uint32_t request_hours, uint32_t delivery_hours, uint32_t life_hours);

/* Does up to `budget` events, the earliest unprocessed message first. hurfaith_count says how many were done, hurfaith_number why
 * it stopped: 0 after `budget` events, 6 or 5 before the next one, or 10. What the counted events did stands, also after 5 and 6. */
uint64_t hurfaith_work(uint8_t *memory, size_t memory_len, uint8_t *out, size_t out_len, uint32_t budget);

/* Takes one frame that the carrier brought. What it writes are the acknowledgment and cancels, or the frames that go on with the
 * round. Answers 0, or 10, then 1, 11 or 12, then 2, 3, 9, 4 or 7, 5, looked for in that order. After 5 the frame may be brought again. */
uint64_t hurfaith_take(uint8_t *memory, size_t memory_len, const uint8_t *frame, size_t frame_len, uint8_t *out, size_t out_len);

/* Opens a round at gateway 0. Writes at most two frames. Answers 0, or 10, 4, 5. */
uint64_t hurfaith_start(uint8_t *memory, size_t memory_len, uint8_t *out, size_t out_len);

/* Commits the oldest processed event if its hour is below the agreed time: it leaves the queue, and its record is written, its frame
 * and then the state after it (stock, failed, fitted and short, 4 bytes each, high byte first): 43 bytes for a Failure, a Request or a
 * Delivery, 26 for a Restock. Answers 0, or 10, 6, 5. */
uint64_t hurfaith_commit(uint8_t *memory, size_t memory_len, uint8_t *out, size_t out_len);

/* The agreed time: hurfaith_number is 0 and hurfaith_count the hour, or hurfaith_number is 10. `memory` is only read. */
uint64_t hurfaith_agreed_time(const uint8_t *memory, size_t memory_len);

/* The lamp of a frame, of whatever gateway and hour: hurfaith_number is 0, and the lamp is the eighteen bytes of `frame` from
 * hurfaith_place on; or hurfaith_number is 1, 11 or 12, and hurfaith_place 0. `frame` is only read. */
uint64_t hurfaith_lamp(const uint8_t *frame, size_t frame_len);

/* The readers of a record. */
enum {
    HURFAITH_PURCHASING = 0,
    HURFAITH_MAINTENANCE = 1
};

/* Which stock a record has. No byte of a record tells it. */
enum {
    /* Of four bytes, as hurfaith_commit writes it: the states have sixteen. */
    HURFAITH_NEW_STOCK = 0,
    /* Of two bytes, as in records from before the stock had four: the states have fourteen, and the events 41 bytes and, of Restocks,
     * 24. */
    HURFAITH_OLD_STOCK = 1
};

/* What `reader` sees of `record`, a whole record as the commits of a gateway wrote it, one event behind the other, with the stock that
 * `old_stock` says. For each event one byte, the map, then the fields whose bit stands, in bit order, numbers high byte first; a field
 * that the kind lacks is left out. An old stock has four bytes in the view too:
 *
 *   HURFAITH_PURCHASING    bits from 0: hour (4 bytes), kind (1), quantity (2), stock (4), failed (4), fitted (4), short (4)
 *                          Failure, Request, Delivery: map 123, 22 bytes; Restock: map 127, 24 bytes
 *   HURFAITH_MAINTENANCE   bits from 0: hour (4 bytes), kind (1), lamp (18), origin (1)
 *                          Failure, Request, Delivery: map 15, 25 bytes; Restock: map 3, 6 bytes
 *
 * The record is read event by event: a frame, cut by the length that its map gives, and the sixteen or fourteen bytes of the state
 * after it. Answers 0; or 8, looked for first; or 1, 11, 12, 2, 3 or the 11 of a cut state, of the first event that is refused; or 5,
 * looked for where the whole record is good. An empty record gives an empty view. An output as long as the record is enough. `record`
 * is only read. Two records that are taken and agree in the fields of a reader, event by event, give that reader equal bytes, also where
 * one has the old stock and the other the new. */
uint64_t hurfaith_view(const uint8_t *record, size_t record_len, uint8_t *out, size_t out_len, uint32_t reader, uint32_t old_stock);

/* What came to a gateway's shelf and what left it, in `record`, a whole record as its commits wrote it, with the stock of four bytes; or
 * the first events of one. The stock is followed from opening_stock, at most 65,535, through the events as the lamp model has it, never
 * taken from a state: a Restock adds its quantity, and a Request that finds stock takes one.
 *
 *   figures[0]   received: the quantities of the Restocks together
 *   figures[1]   served: the Requests that found stock
 *   figures[2]   the stock in the last event's state, or opening_stock where the record has no event
 *
 * Elements behind these three stay as they were. No figure and no sum of them passes 64 bits. The record is read as hurfaith_view reads
 * it. Answers 0; or 8, looked for first; or 1, 11, 12, 2, 3 or the 11 of a cut state, of the first event that is refused; or 5 where count
 * is below 3, looked for where the whole record is good. `record` is only read.
 *
 * Where commits wrote the record and opening_stock is what that gateway was set up with, opening_stock + figures[0] is
 * figures[1] + figures[2], after each commit and before the first. The call does not look whether it is: that is for the caller to see.
 * A record with the old stock is none for this call: its shelf stopped at 65,535, so that it need not balance. */
uint32_t hurfaith_balance(const uint8_t *record, size_t record_len, uint32_t opening_stock, uint64_t *figures, size_t count);

#ifdef __cplusplus
}
#endif

#endif
