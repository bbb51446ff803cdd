/* zemirako_engine.h: audio decoders and encoders of Zemirako's WebCodecs engine for C.
 *
 * A codec, which is a decoder or an encoder, lies in room of its owner.
 * zemirako_audio_decoder_open and zemirako_audio_encoder_open put one there, and zemirako_codec_end
 * gives back all that it took of malloc. In between each call is one step of W3C WebCodecs
 * (AudioDecoder, AudioEncoder): configure, decode or encode, flush, reset, close; `work` begins the
 * front work item, does it and ends it; `turn` runs the front event task. When work and turns
 * happen is the runtime's choice. Each step that is made has a number, its place, from 0 on.
 *
 * A codec keeps no history. It holds what is queued, and what the last step showed: its outputs
 * and the ends of promises, until the next call or turn that is made.
 *
 * What the caller owes:
 * - `at` is room of at least zemirako_codec_size() bytes, aligned to zemirako_codec_align(). Only
 *   these calls touch its bytes from `open` to `end`. Where no codec was opened, or it was ended,
 *   each call but `open` says ZEMIRAKO_NOT_OPEN (`configure`, `decode` and `encode` may find no
 *   memory for their argument first), as long as the first eight bytes there are not by chance
 *   those of an open one. The same is said where a decoder's `configure` or `decode` is made on an
 *   encoder, or an encoder's on a decoder. The room of an open codec is not opened again, moved or
 *   freed before `end`.
 * - One call at a time is made on a codec. It may go to another thread between calls, where that
 *   is ordered by a lock, by a thread's start or join, or by a sequentially consistent atomic.
 *   Calls on different codecs may overlap.
 * - A slice is a pointer, not null and aligned, and behind it a count: so many elements can be read
 *   there, or written where it is not const. Also where the count is 0 the pointer is not null.
 *   What is read was set before. What may be written meets nothing else.
 * - There is stack enough for the call.
 * - malloc, realloc and free are of one allocator whose blocks are aligned as far as 16. No call is
 *   made from a signal handler, nor from the child of a fork in a process with threads.
 *
 * What is handed in is copied; no call keeps a pointer. No proof covers the caller, this header, or
 * malloc, realloc and free.
 */
#ifndef ZEMIRAKO_ENGINE_H
#define ZEMIRAKO_ENGINE_H

#include "zemirako.h"

#ifdef __cplusplus
extern "C" {
#endif

/* The version as a number, 65536 * major + 256 * minor + patch, and that of the library. */
#define ZEMIRAKO_ENGINE_VERSION 0x000200u
uint32_t zemirako_engine_version(void);

/* Statuses, beside those of zemirako.h. ZEMIRAKO_REFUSED says that a call has an exception, which
 * `error` tells, or that there is no such output, end or item. After ZEMIRAKO_NO_MEMORY nothing has
 * changed; a codec for which there was none when it was opened says it of each step. Only
 * `configure`, `decode`, `encode` and `flush` of an open codec want memory. With a status that is
 * neither ZEMIRAKO_DONE, ZEMIRAKO_REFUSED nor ZEMIRAKO_TOO_SMALL, the other members of an answer
 * are 0. */
#define ZEMIRAKO_IDLE 5u     /* no task, or no item that can begin: nothing has changed */
#define ZEMIRAKO_NOT_OPEN 6u /* no such codec was opened there, or it was ended: nothing changed */
#define ZEMIRAKO_USED_UP 7u  /* the codec made nearly 2^64 steps: nothing has changed */

/* Exceptions: the names of DOMException, TypeError and RangeError; the last one is not of the
 * standard. */
enum { ZEMIRAKO_ABORT = 1, ZEMIRAKO_INVALID_STATE, ZEMIRAKO_NOT_SUPPORTED, ZEMIRAKO_ENCODING,
       ZEMIRAKO_DATA, ZEMIRAKO_DATA_CLONE, ZEMIRAKO_QUOTA_EXCEEDED, ZEMIRAKO_TYPE, ZEMIRAKO_RANGE,
       ZEMIRAKO_OUT_OF_MEMORY };

/* What a turn ran. Outputs come with OUTPUT and FLUSHED, the promise of a flush is resolved with
 * FLUSHED, the event `dequeue` is fired with DEQUEUE, and with CLOSE the error callback is called
 * and each pending promise rejected. */
enum { ZEMIRAKO_TURN_UNBLOCK = 1, ZEMIRAKO_TURN_PROCESS, ZEMIRAKO_TURN_DESATURATE,
       ZEMIRAKO_TURN_OUTPUT, ZEMIRAKO_TURN_FLUSHED, ZEMIRAKO_TURN_DEQUEUE, ZEMIRAKO_TURN_CLOSE };

/* The state of a codec (CodecState). The formats of samples are those of zemirako.h. */
enum { ZEMIRAKO_UNCONFIGURED, ZEMIRAKO_CONFIGURED, ZEMIRAKO_CLOSED };

/* A decoder or an encoder. */
typedef struct zemirako_codec zemirako_codec;
typedef struct zemirako_work_item zemirako_work_item;

typedef struct zemirako_audio_config {
    uint32_t rate, channels, has_description;
} zemirako_audio_config;

/* The last three are read for "flac" alone: the size of a block in frames, 0 or 16 to 65,535 (0
 * leaves it to the encoder), the level of compression, 0 to 8, and bits a sample: 8, 16, 24 or 32.
 * Outside of these the config is refused for each codec, so name 0, 5 and 16 where you do not
 * care. */
typedef struct zemirako_audio_encoder_config {
    uint32_t rate, channels, block_size, level, depth;
} zemirako_audio_encoder_config;

/* Samples beside their bytes, which are at least as many as the shape needs; the timestamp is in
 * microseconds. */
typedef struct zemirako_samples_head {
    uint32_t format, rate, channels, frames;
    int64_t timestamp;
} zemirako_samples_head;

/* A chunk beside its bytes: a key chunk where `key` is not 0, with a duration where `has_duration`
 * is not 0; times in microseconds. */
typedef struct zemirako_chunk_head {
    uint32_t key, has_duration;
    int64_t timestamp;
    uint64_t duration;
} zemirako_chunk_head;

typedef struct zemirako_reply {
    uint32_t status, error;
    uint64_t place;   /* of the step; of a flush also the name of its promise */
    uint64_t settled; /* so many promises were rejected, numbered from 0 */
} zemirako_reply;

typedef struct zemirako_turn {
    uint32_t status, word, error;
    uint64_t outputs; /* so many outputs are shown, numbered from 0 */
    uint64_t settled; /* so many promises were resolved or rejected, numbered from 0 */
    uint64_t place;
} zemirako_turn;

typedef struct zemirako_output {
    uint32_t status, format, rate, channels, frames;
    int64_t timestamp; /* in microseconds */
    uint64_t size;     /* in bytes, also where they do not fit the room */
} zemirako_output;

/* A chunk of an encoder; times in microseconds. */
typedef struct zemirako_chunk {
    uint32_t status, key, has_duration;
    uint32_t has_config; /* not 0: from it on, chunks are decoded with the config that it carries */
    int64_t timestamp;
    uint64_t duration; /* 0 where it has none */
    uint64_t size;     /* in bytes, also where they do not fit the room */
} zemirako_chunk;

/* The decoder config that a chunk carries. */
typedef struct zemirako_decoder_config {
    uint32_t status, rate, channels, has_description;
    uint64_t size; /* of the part that is asked for, in bytes */
} zemirako_decoder_config;

typedef struct zemirako_settled {
    uint32_t status, error; /* error 0: the promise was resolved */
    uint64_t promise;
} zemirako_settled;

typedef struct zemirako_look {
    uint32_t status, phase;
    uint64_t queue_size, entries;
} zemirako_look;

size_t zemirako_codec_size(void);
size_t zemirako_codec_align(void);

/* `begin` is `open` without its answer. */
void zemirako_audio_decoder_begin(zemirako_codec *at, uint32_t saturation);
void zemirako_audio_encoder_begin(zemirako_codec *at, uint32_t saturation);
/* ZEMIRAKO_DONE or ZEMIRAKO_NOT_OPEN. */
uint32_t zemirako_codec_end(zemirako_codec *at);

/* The codec string in UTF-8, as "pcm-s16", "flac" (with a description) or "alaw". The description
 * counts where has_description is not 0. */
zemirako_reply zemirako_audio_decoder_configure(zemirako_codec *at,
                                                const zemirako_audio_config *config,
                                                const uint8_t *codec, size_t codec_count,
                                                const uint8_t *description,
                                                size_t description_count);
zemirako_reply zemirako_audio_decoder_decode(zemirako_codec *at,
                                             const zemirako_chunk_head *head,
                                             const uint8_t *bytes, size_t bytes_count);

/* An encoder's config, with the codec string in UTF-8. */
zemirako_reply zemirako_audio_encoder_configure(zemirako_codec *at,
                                                const zemirako_audio_encoder_config *config,
                                                const uint8_t *codec, size_t codec_count);
/* The samples are copied, as the standard clones the AudioData. ZEMIRAKO_INVALID where its
 * constructor refuses them with a TypeError: no such format, no rate, frame or channel, or fewer
 * bytes than the shape needs. Samples are never detached: that is the runtime's to tell. */
zemirako_reply zemirako_audio_encoder_encode(zemirako_codec *at,
                                             const zemirako_samples_head *head,
                                             const uint8_t *bytes, size_t bytes_count);

zemirako_reply zemirako_codec_flush(zemirako_codec *at);
zemirako_reply zemirako_codec_reset(zemirako_codec *at);
zemirako_reply zemirako_codec_close(zemirako_codec *at);

/* `moment` is a time in microseconds, at which the item ends. ZEMIRAKO_IDLE where no item is
 * queued, one is at work, or the codec is halted. Where the item wants memory and gets none, it
 * ends with ZEMIRAKO_OUT_OF_MEMORY, which closes the codec in a turn. */
uint32_t zemirako_codec_work(zemirako_codec *at, uint64_t moment);
/* ZEMIRAKO_IDLE where no task is queued. */
zemirako_turn zemirako_codec_turn(zemirako_codec *at);

/* Puts the bytes of an output of the last step at the front of `room`. Where they do not fit, or
 * there is no such output, the room stays. The outputs of a decoder are samples, and those of an
 * encoder chunks. */
zemirako_output zemirako_audio_decoder_output(zemirako_codec *at, uint64_t number,
                                              uint8_t *room, size_t room_count);
zemirako_chunk zemirako_audio_encoder_chunk(zemirako_codec *at, uint64_t number, uint8_t *room,
                                            size_t room_count);
/* The same for the codec string, in UTF-8, and for the description of the decoder config that a
 * chunk carries. ZEMIRAKO_REFUSED where there is no such chunk, or it carries none. */
zemirako_decoder_config zemirako_audio_encoder_config_codec(zemirako_codec *at, uint64_t number,
                                                            uint8_t *room, size_t room_count);
zemirako_decoder_config zemirako_audio_encoder_config_description(zemirako_codec *at,
                                                                  uint64_t number, uint8_t *room,
                                                                  size_t room_count);
/* The end of a promise that the last step settled. */
zemirako_settled zemirako_codec_settled(zemirako_codec *at, uint64_t number);
zemirako_look zemirako_codec_look(zemirako_codec *at);

/* Work on another thread. `start` begins the front item, which leaves the codec for room of its
 * owner; `perform` does it with no codec at hand, on any thread, while the owner goes on calling
 * the codec; `done` ends it and frees the room again. Where no item could begin, what leaves is
 * empty: `perform` does nothing, and `done` answers ZEMIRAKO_IDLE and changes nothing. An item
 * whose numbers are not those of the item at work is dropped with ZEMIRAKO_REFUSED.
 *
 * The caller owes, beside what is said above: `start` gets room where no item lies, of as many
 * bytes and as aligned as the calls say. `done` gets the item that this very codec has at work;
 * where it was not performed, `done` performs it. An item that is dropped instead never ends, and
 * then no other item of its codec can begin. A codec may be ended while an item is out, which
 * zemirako_work_item_end then frees. */
size_t zemirako_work_item_size(void);
size_t zemirako_work_item_align(void);
void zemirako_codec_start(zemirako_codec *at, zemirako_work_item *room);
void zemirako_work_item_perform(zemirako_work_item *at);
uint32_t zemirako_codec_done(zemirako_codec *at, zemirako_work_item *room,
                                     uint64_t moment);
void zemirako_work_item_end(zemirako_work_item *at);

/* ---- What follows is not proved. */

/* `saturation`, 1 to 64: so many coded items may be at work before messages wait. ZEMIRAKO_DONE,
 * ZEMIRAKO_NO_MEMORY, or ZEMIRAKO_INVALID where the saturation is out of its range. After another
 * status than ZEMIRAKO_DONE each step and `look` say that status, and the codec is ended as any
 * other. */
static inline uint32_t zemirako_audio_decoder_open(zemirako_codec *at,
                                                   uint32_t saturation) {
    zemirako_audio_decoder_begin(at, saturation);
    return zemirako_codec_look(at).status;
}

static inline uint32_t zemirako_audio_encoder_open(zemirako_codec *at, uint32_t saturation) {
    zemirako_audio_encoder_begin(at, saturation);
    return zemirako_codec_look(at).status;
}

/* Configures by a codec string that ends in 0, and by a description that counts where its pointer
 * is not null. */
static inline zemirako_reply zemirako_audio_decoder_configure_as(
    zemirako_codec *at, const char *codec, uint32_t rate, uint32_t channels,
    const uint8_t *description, size_t description_count) {
    zemirako_audio_config config = {rate, channels, description ? 1u : 0u};
    const uint8_t *text = (const uint8_t *)codec;
    size_t count = 0;
    while (codec[count]) count++;
    return zemirako_audio_decoder_configure(at, &config, text, count,
                                            description ? description : text,
                                            description ? description_count : 0);
}

/* Configures an encoder by a codec string that ends in 0. */
static inline zemirako_reply zemirako_audio_encoder_configure_as(
    zemirako_codec *at, const char *codec, zemirako_audio_encoder_config config) {
    size_t count = 0;
    while (codec[count]) count++;
    return zemirako_audio_encoder_configure(at, &config, (const uint8_t *)codec, count);
}

/* What a status says. */
static inline const char *zemirako_status_text(uint32_t status) {
    switch (status) {
    case ZEMIRAKO_DONE: return "done";
    case ZEMIRAKO_REFUSED: return "refused";
    case ZEMIRAKO_NO_MEMORY: return "out of memory";
    case ZEMIRAKO_TOO_SMALL: return "the room is too small";
    case ZEMIRAKO_INVALID: return "an argument is out of its range";
    case ZEMIRAKO_IDLE: return "there is nothing to do";
    case ZEMIRAKO_NOT_OPEN: return "not open";
    case ZEMIRAKO_USED_UP: return "no step has a number any more";
    default: return "no status";
    }
}

/* The name of an exception or of a promise's end; 0 is none. */
static inline const char *zemirako_error_text(uint32_t error) {
    switch (error) {
    case 0: return "no error";
    case ZEMIRAKO_ABORT: return "AbortError";
    case ZEMIRAKO_INVALID_STATE: return "InvalidStateError";
    case ZEMIRAKO_NOT_SUPPORTED: return "NotSupportedError";
    case ZEMIRAKO_ENCODING: return "EncodingError";
    case ZEMIRAKO_DATA: return "DataError";
    case ZEMIRAKO_DATA_CLONE: return "DataCloneError";
    case ZEMIRAKO_QUOTA_EXCEEDED: return "QuotaExceededError";
    case ZEMIRAKO_TYPE: return "TypeError";
    case ZEMIRAKO_RANGE: return "RangeError";
    case ZEMIRAKO_OUT_OF_MEMORY: return "out of memory";
    default: return "no name";
    }
}

#ifdef __cplusplus
}
#endif
#endif
