/* zemirako.h: the coders of Zemirako for C.
 *
 * Both laws of ITU-T G.711 over whole buffers; of FLAC (RFC 9639) descriptions, the ends of frames, frames decoded (also
 * from a stream, as its bytes come), the heads of streams, and blocks coded; copies of sound in other formats. The library is proved: each call is
 * safe, ends, and answers as said here, where its caller does what follows. No proof covers the caller, this header, or
 * malloc, realloc and free.
 *
 * What the caller owes:
 * - A slice is a pointer and, behind it, a count of elements: so many can be read there, or written where it is not const.
 *   Its pointer is not null and is aligned for its element, also where the count is 0; it has less than 2^63 bytes.
 * - Every other pointer is not null, is aligned, and points to one value that can be read, and written where it is not const.
 * - There is stack enough for the call.
 * - What a call may write meets nothing else that is handed to it. Slices that are only read may meet each other.
 * - What is read is set before: structs, all samples and bytes, and what a room holds already.
 * - While a call runs, nothing else writes what it was handed, nor reads what it may write.
 * - malloc, realloc and free are of one allocator, whose blocks are aligned to each power of two up to 16 that divides
 *   their size. Calls that take memory are said below; not one is made from a signal handler, or from the child of a fork
 *   in a process with threads.
 *
 * No call keeps a pointer or any state: calls on different memory may run at the same time in different threads. What a call
 * takes of malloc it gives back before it returns.
 *
 * Each call but zemirako_flac_most_bytes answers with a status. A call never writes past the count of a room. Where its
 * status is another than ZEMIRAKO_DONE, rooms are as they were; so is each value that it gives through a pointer, but for
 * those that are said below to be written with another status.
 */
#ifndef ZEMIRAKO_H
#define ZEMIRAKO_H

#include <stddef.h>
#include <stdint.h>

/* The version, as CHANGELOG.md has it. */
#define ZEMIRAKO_VERSION "0.2.0"

#ifdef __cplusplus
extern "C" {
#endif

#define ZEMIRAKO_DONE 0u      /* All is done. */
#define ZEMIRAKO_REFUSED 1u   /* The bytes are not what they are to be. */
#define ZEMIRAKO_NO_MEMORY 2u /* malloc or realloc gave none. */
#define ZEMIRAKO_TOO_SMALL 3u /* What there is to write does not fit the room. */
#define ZEMIRAKO_INVALID 4u   /* An argument is out of its range. */
#define ZEMIRAKO_NEED_MORE 8u /* The bytes end before what they are to be does. 5 to 7 are of zemirako_engine.h. */

/* ---- G.711. A code is a byte, and stands for a sample of 16 bits. They take no memory. */

/* Puts the samples of all codes at the front of `samples`, one for each code.
 * ZEMIRAKO_DONE; or ZEMIRAKO_TOO_SMALL exactly where samples_count < codes_count. */
uint32_t zemirako_alaw_decode(const uint8_t *codes, size_t codes_count, int16_t *samples, size_t samples_count);
uint32_t zemirako_ulaw_decode(const uint8_t *codes, size_t codes_count, int16_t *samples, size_t samples_count);

/* Puts the codes of all samples at the front of `codes`, one for each sample.
 * ZEMIRAKO_DONE; or ZEMIRAKO_TOO_SMALL exactly where codes_count < samples_count. */
uint32_t zemirako_alaw_encode(const int16_t *samples, size_t samples_count, uint8_t *codes, size_t codes_count);
uint32_t zemirako_ulaw_encode(const int16_t *samples, size_t samples_count, uint8_t *codes, size_t codes_count);

/* ---- FLAC. A frame of sound is one sample of each channel; a FLAC frame codes a block of 1 to 65535 of them. */

/* What a stream says of itself (RFC 9639, section 8.2). */
typedef struct zemirako_flac_description {
    uint64_t total;     /* frames of sound in all; 0 for unknown */
    uint32_t min_block; /* frames of sound in a block, at least and at most */
    uint32_t max_block;
    uint32_t min_frame; /* bytes of a FLAC frame, at least and at most; 0 for unknown */
    uint32_t max_frame;
    uint32_t rate;     /* frames of sound in a second */
    uint32_t channels; /* 1 to 8 */
    uint32_t depth;    /* bits a sample */
    uint8_t md5[16];   /* the MD5 sum of all samples; zeros for unknown */
} zemirako_flac_description;

/* Reads the description with which a native FLAC stream begins: `fLaC`, and the block STREAMINFO with its header, 42 bytes
 * in all. Bytes behind them do not matter. It takes no memory.
 * ZEMIRAKO_DONE; or ZEMIRAKO_REFUSED where the bytes do not begin so, the rate is 0, or the depth is below 4. */
uint32_t zemirako_flac_read_description(const uint8_t *bytes, size_t bytes_count, zemirako_flac_description *description);

/* How many bytes a description has. */
#define ZEMIRAKO_FLAC_DESCRIPTION_SIZE 42

/* Puts a description at the front of `bytes`: `fLaC`, and the block STREAMINFO with its header, as the last block of
 * metadata; and its size, 42, into `size`. zemirako_flac_read_description reads the same description from it. It takes no
 * memory.
 * ZEMIRAKO_DONE; ZEMIRAKO_TOO_SMALL where bytes_count is below 42, and then only `size` is written; or ZEMIRAKO_INVALID
 * exactly where a field is out of its range: min_block and max_block 0 to 65535, min_frame and max_frame 0 to 16777215,
 * rate 1 to 1048575, channels 1 to 8, depth 4 to 32, total 0 to 68719476735. */
uint32_t zemirako_flac_write_description(const zemirako_flac_description *description, uint8_t *bytes, size_t bytes_count,
                                         size_t *size);

/* Finds after how many bytes the FLAC frame of the described stream ends that begins at the front of `bytes`, and puts their
 * count into `end`: so many first bytes are a frame, and no other number of them is. It takes memory.
 * ZEMIRAKO_DONE; ZEMIRAKO_REFUSED where no first bytes are a frame of the stream; ZEMIRAKO_NO_MEMORY; or ZEMIRAKO_INVALID
 * exactly where the description's depth is not 1 to 32. */
uint32_t zemirako_flac_frame_end(const uint8_t *bytes, size_t bytes_count, const zemirako_flac_description *description,
                                 uint64_t *end);

/* Decodes the FLAC frame that `frame` is, with nothing behind it, of the described stream. Its samples are put at the front
 * of `samples`, frame by frame (interleaved), each at the stream's depth: of 16 bits, -32768 to 32767. `block` is how many
 * samples each channel has. It takes memory.
 * ZEMIRAKO_DONE; ZEMIRAKO_TOO_SMALL where samples_count is below block * channels, and then only `block` is written;
 * ZEMIRAKO_REFUSED exactly where the bytes are no frame of the stream, are 2^61 or more, or a sample does not fit the depth;
 * ZEMIRAKO_NO_MEMORY; or ZEMIRAKO_INVALID exactly where the description's depth is not 1 to 32. */
uint32_t zemirako_flac_decode_frame(const uint8_t *frame, size_t frame_count, const zemirako_flac_description *description,
                                    int32_t *samples, size_t samples_count, uint32_t *block);

/* Decodes the FLAC frame of the described stream with which `bytes` begin, in one pass; bytes behind it do not matter. `size`
 * is how many bytes it has: so many first bytes are a frame, and no other number of them is. Its samples and `block` are as
 * of zemirako_flac_decode_frame. It takes memory.
 * ZEMIRAKO_DONE; ZEMIRAKO_TOO_SMALL where samples_count is below block * channels, and then only `block` and `size` are
 * written; ZEMIRAKO_NO_MEMORY; ZEMIRAKO_INVALID exactly where the description's depth is not 1 to 32; and else no first
 * bytes are a frame of the stream: ZEMIRAKO_NEED_MORE where reading them as one, field by field, ends for want of bits, and
 * ZEMIRAKO_REFUSED where it ends at a bit that is there. After ZEMIRAKO_NEED_MORE call again with the same bytes and more
 * behind them; at the stream's end no whole frame is left. */
uint32_t zemirako_flac_decode_next(const uint8_t *bytes, size_t bytes_count, const zemirako_flac_description *description,
                                   int32_t *samples, size_t samples_count, uint32_t *block, size_t *size);

/* Where the parts of a native FLAC stream begin, in bytes from its first on. */
typedef struct zemirako_flac_places {
    size_t first_frame; /* the first frame */
    size_t seek_table;  /* the first point of the seek table (RFC 9639, section 8.5); 0 without one */
    size_t seek_points; /* how many points it has, of 18 bytes each */
} zemirako_flac_places;

/* Reads the head of a native FLAC stream at the front of `bytes`: `fLaC`, the block STREAMINFO, and the other blocks of
 * metadata, which are passed over, up to the one that is marked as the last. Points of a seek table are not looked at. It
 * takes no memory.
 * ZEMIRAKO_DONE; ZEMIRAKO_NEED_MORE exactly where the bytes end within a head: some bytes behind them make it whole; or
 * ZEMIRAKO_REFUSED exactly where none do. A stream with a rate of 0 or a depth below 4 has no head. After ZEMIRAKO_NEED_MORE
 * call again with the same bytes and more behind them. */
uint32_t zemirako_flac_read_head(const uint8_t *bytes, size_t bytes_count, zemirako_flac_description *description,
                                 zemirako_flac_places *places);

/* Finds where a frame of the described stream begins, at the place `from` of `bytes` or behind it, and puts it into `place`:
 * the first place at which a frame's header reads (RFC 9639, section 9.1), with its sync code, its fields and its sum. A
 * stream is taken up so again behind damage, or from its middle. What stands behind the header is not looked at; sound may
 * spell a header too. It takes no memory.
 * ZEMIRAKO_DONE; ZEMIRAKO_NEED_MORE where no header is whole in the bytes from `from` on, and then `place` is the first place
 * from there on at which reading a header ends for want of bits: bytes before it are wanted no more; or ZEMIRAKO_INVALID
 * exactly where the description's depth is not 1 to 32. */
uint32_t zemirako_flac_next_frame(const uint8_t *bytes, size_t bytes_count, size_t from,
                                  const zemirako_flac_description *description, size_t *place);

/* Puts the MD5 sum of all samples of a stream at the front of `sum`, as a description has it (RFC 9639, section 8.2).
 * `samples` are frame by frame (interleaved), each of `depth` bits. It takes no memory.
 * ZEMIRAKO_DONE; ZEMIRAKO_TOO_SMALL exactly where sum_count is below 16 and the depth is in its range; or ZEMIRAKO_INVALID
 * exactly where the depth is not 1 to 32. */
uint32_t zemirako_flac_sum_samples(const int32_t *samples, size_t samples_count, uint32_t depth, uint8_t *sum,
                                   size_t sum_count);

/* What the blocks of a stream that is coded have in common. */
typedef struct zemirako_flac_format {
    uint32_t rate;    /* frames of sound in a second; any */
    uint8_t channels; /* 1 to 8 */
    uint8_t depth;    /* bits a sample: 8, 16, 24 or 32 */
    uint8_t level;    /* 0 to 8: the higher, the more is tried */
} zemirako_flac_format;

/* Codes a block as a FLAC frame of a stream with fixed block sizes. `block`, 1 to 65535, is how many samples each channel
 * has; `samples` are block * channels, one channel after another (planar), each within the depth: of 16 bits, -32768 to
 * 32767. `number`, below 2^31, is the frame's number in the stream, from 0 on. The frame's bytes are put at the front of
 * `bytes`, and their count into `size`. It takes memory.
 * ZEMIRAKO_DONE; ZEMIRAKO_TOO_SMALL where bytes_count is below the frame's size, and then only `size` is written;
 * ZEMIRAKO_NO_MEMORY; or ZEMIRAKO_INVALID exactly where the format, block, number, count of samples or a sample is out of
 * its range. */
uint32_t zemirako_flac_encode_block(const zemirako_flac_format *format, uint32_t block, uint32_t number,
                                    const int32_t *samples, size_t samples_count, uint8_t *bytes, size_t bytes_count,
                                    size_t *size);

/* How many bytes the frame of a block has at most, whatever its samples and its number: in a room of so many,
 * zemirako_flac_encode_block never answers ZEMIRAKO_TOO_SMALL. It says nothing where the format or the block is out of its
 * range. It takes no memory. */
size_t zemirako_flac_most_bytes(const zemirako_flac_format *format, uint32_t block);

/* ---- Copies of sound in other formats, as AudioData of W3C WebCodecs. */

/* Formats: bytes with their middle at 128, or little-endian numbers of 16 or 32 bits in two's complement; frame by frame
 * (interleaved, one plane), or channel by channel (planar, a plane for each channel). */
#define ZEMIRAKO_U8 0u
#define ZEMIRAKO_S16 1u
#define ZEMIRAKO_S32 2u
#define ZEMIRAKO_U8_PLANAR 3u
#define ZEMIRAKO_S16_PLANAR 4u
#define ZEMIRAKO_S32_PLANAR 5u

typedef struct zemirako_sound {
    uint32_t format;
    uint32_t channels; /* 1 to 32 */
    uint32_t frames;   /* any */
} zemirako_sound;

/* What is copied of it: a plane of the format in which it is copied, and `count` frames from `first` on. */
typedef struct zemirako_part {
    uint32_t format; /* of the copy */
    uint32_t plane;  /* 0 of a format that is interleaved, and else the channel */
    uint32_t first;
    uint32_t count;
} zemirako_part;

/* Copies a part of some sound to the front of `to`, and puts into `size` how many bytes it has: its frames, times the bytes
 * of a sample of the part's format, times all channels where that format is interleaved. `bytes` is the whole sound, plane
 * after plane. A sample that gets more bits is multiplied by a power of two; one that gets fewer is divided by one and
 * rounded down. It takes no memory.
 * ZEMIRAKO_DONE; ZEMIRAKO_TOO_SMALL exactly where to_count is below the size, and then only `size` is written; or
 * ZEMIRAKO_INVALID exactly where a format or the channels are out of range, bytes_count is not channels * frames times the
 * bytes of a sample, the format of the part has no such plane, or first + count is above the sound's frames. */
uint32_t zemirako_copy_sound(const zemirako_sound *sound, const uint8_t *bytes, size_t bytes_count,
                             const zemirako_part *part, uint8_t *to, size_t to_count, size_t *size);

#ifdef __cplusplus
}
#endif

#endif
