/* Plays a WAV file (linear PCM, A-law or mu-law) or a native FLAC file into a WAV file, through an
 * audio decoder of Zemirako's engine: play IN OUT.wav
 *
 * The thread of main is the event loop. It hands chunks to the decoder, runs its event tasks and
 * writes the outputs that they show. Each work item leaves the decoder for a second thread, which
 * performs it meanwhile, and comes back. Functions answer what went wrong, or NULL.
 *
 * Needs both libraries for C and threads. */
#include "sound_files.h"
#include <pthread.h>
#include <time.h>

enum { QUEUED = 8 }; /* so many chunks wait at most */

/* The second thread. `state` is guarded by the lock; `item` is of the thread while it WORKS. */
struct worker {
    pthread_t thread;
    pthread_mutex_t lock;
    pthread_cond_t changed;
    enum { RESTS, WORKS, STOPS } state;
    zemirako_work_item *item;
};

struct player {
    struct source from;
    struct worker worker;
    zemirako_codec *decoder;
    struct sink to;
    uint8_t *room; /* for outputs, never null */
    size_t room_size;
    int is_flushing, is_over, any; /* any: something happened in this round */
    uint64_t promise;              /* of the flush */
};

/* What is wrong where a call answers so. */
static const char *wrong(uint32_t status, uint32_t error) {
    if (status == ZEMIRAKO_DONE) return NULL;
    return error ? zemirako_error_text(error) : zemirako_status_text(status);
}

static const char *write_output(struct player *p, uint64_t number) {
    zemirako_output o = zemirako_audio_decoder_output(p->decoder, number, p->room, p->room_size);
    if (o.status == ZEMIRAKO_TOO_SMALL) {
        uint8_t *room = (uint8_t *)realloc(p->room, o.size);
        if (!room) return "out of memory for an output";
        p->room = room;
        p->room_size = o.size;
        o = zemirako_audio_decoder_output(p->decoder, number, p->room, p->room_size);
    }
    return o.status ? wrong(o.status, 0) : write_sound(&p->to, &o, p->room);
}

/* Runs all event tasks that are queued. */
static const char *run_turns(struct player *p) {
    const char *why = NULL;
    zemirako_turn turn;
    while (!why && (turn = zemirako_codec_turn(p->decoder)).status == ZEMIRAKO_DONE) {
        p->any = 1;
        for (uint64_t i = 0; !why && i < turn.outputs; i++) why = write_output(p, i);
        for (uint64_t i = 0; !why && i < turn.settled; i++) {
            zemirako_settled end = zemirako_codec_settled(p->decoder, i);
            why = wrong(end.status, 0);
            if (!why && p->is_flushing && end.promise == p->promise && !end.error) p->is_over = 1;
        }
        if (!why && turn.word == ZEMIRAKO_TURN_CLOSE) why = zemirako_error_text(turn.error);
    }
    return why || turn.status == ZEMIRAKO_IDLE ? why : wrong(turn.status, 0);
}

/* Hands the next chunk to the decoder. */
static const char *decode_next(struct player *p) {
    struct source *s = &p->from;
    uint64_t count, before;
    const char *why = next_chunk(s, &count, &before);
    if (why) return why;
    zemirako_chunk_head head = {1, 0, (int64_t)(before * 1000000 / s->rate), 0};
    zemirako_reply reply =
        zemirako_audio_decoder_decode(p->decoder, &head, s->bytes + s->at, count);
    s->at += count;
    s->chunks++;
    return wrong(reply.status, reply.error);
}

/* Hands chunks to the decoder until enough wait; behind the last one, a flush. */
static const char *feed(struct player *p) {
    while (!p->is_flushing) {
        zemirako_look look = zemirako_codec_look(p->decoder);
        if (look.status != ZEMIRAKO_DONE) return wrong(look.status, 0);
        if (look.queue_size >= QUEUED) return NULL;
        p->any = 1;
        if (p->from.at < p->from.end) {
            const char *why = decode_next(p);
            if (why) return why;
            continue;
        }
        zemirako_reply reply = zemirako_codec_flush(p->decoder);
        if (reply.status != ZEMIRAKO_DONE) return wrong(reply.status, reply.error);
        p->promise = reply.place;
        p->is_flushing = 1;
    }
    return NULL;
}

static void set_worker(struct worker *w, int state) {
    pthread_mutex_lock(&w->lock);
    w->state = state;
    pthread_cond_signal(&w->changed);
    pthread_mutex_unlock(&w->lock);
}

static void await_worker(struct worker *w) {
    pthread_mutex_lock(&w->lock);
    while (w->state == WORKS) pthread_cond_wait(&w->changed, &w->lock);
    pthread_mutex_unlock(&w->lock);
}

static void *work(void *of) {
    struct worker *w = (struct worker *)of;
    pthread_mutex_lock(&w->lock);
    for (;;) {
        while (w->state == RESTS) pthread_cond_wait(&w->changed, &w->lock);
        if (w->state == STOPS) break;
        pthread_mutex_unlock(&w->lock);
        zemirako_work_item_perform(w->item);
        pthread_mutex_lock(&w->lock);
        w->state = RESTS;
        pthread_cond_signal(&w->changed);
    }
    pthread_mutex_unlock(&w->lock);
    return NULL;
}

static const char *play(struct player *p) {
    struct source *s = &p->from;
    zemirako_reply reply = zemirako_audio_decoder_configure_as(
        p->decoder, s->codec, s->rate, s->channels, s->frame ? NULL : s->bytes,
        ZEMIRAKO_FLAC_DESCRIPTION_SIZE);
    if (reply.status != ZEMIRAKO_DONE) return wrong(reply.status, reply.error);
    while (!p->is_over) {
        p->any = 0;
        zemirako_codec_start(p->decoder, p->worker.item);
        set_worker(&p->worker, WORKS);
        const char *why = feed(p); /* while the item is away */
        if (!why) why = run_turns(p);
        await_worker(&p->worker);
        struct timespec now;
        timespec_get(&now, TIME_UTC);
        uint64_t moment = (uint64_t)now.tv_sec * 1000000 + (uint64_t)now.tv_nsec / 1000;
        uint32_t status = zemirako_codec_done(p->decoder, p->worker.item, moment);
        if (why) return why;
        if (status != ZEMIRAKO_IDLE) why = wrong(status, 0);
        if (!why) why = run_turns(p);
        if (why) return why;
        if (status == ZEMIRAKO_IDLE && !p->any && !p->is_over) return "nothing happens any more";
    }
    return NULL;
}

static const char *play_by_threads(struct player *p) {
    struct worker *w = &p->worker;
    w->item = (zemirako_work_item *)malloc(zemirako_work_item_size());
    if (!w->item) return "out of memory for a work item";
    const char *why = "no thread";
    if (!pthread_mutex_init(&w->lock, NULL)) {
        if (!pthread_cond_init(&w->changed, NULL)) {
            if (!pthread_create(&w->thread, NULL, work, w)) {
                why = play(p);
                set_worker(w, STOPS);
                pthread_join(w->thread, NULL);
            }
            pthread_cond_destroy(&w->changed);
        }
        pthread_mutex_destroy(&w->lock);
    }
    free(w->item);
    return why;
}

static const char *play_file(struct player *p, const char *in, const char *out) {
    const char *why = read_source(&p->from, in);
    if (why) return why;
    p->decoder = (zemirako_codec *)malloc(zemirako_codec_size());
    p->room = (uint8_t *)malloc(p->room_size = 4096);
    if (!p->decoder || !p->room) return "out of memory for a decoder";
    if (!(p->to.to = fopen(out, "wb"))) return "cannot open the file to write";
    uint32_t status = zemirako_audio_decoder_open(p->decoder, 4);
    why = status ? wrong(status, 0) : play_by_threads(p);
    if (zemirako_codec_end(p->decoder) != ZEMIRAKO_DONE && !why) why = "not ended";
    return why;
}

int main(int count, char **words) {
    struct player p = {0};
    const char *why = count == 3 ? play_file(&p, words[1], words[2]) : "give: IN OUT.wav";
    if (!why) why = finish(&p.to);
    if (p.to.to && fclose(p.to.to) && !why) why = "cannot write";
    free(p.room);
    free(p.decoder);
    free(p.from.bytes);
    if (why) fprintf(stderr, "play: %s\n", why);
    return why != NULL;
}
