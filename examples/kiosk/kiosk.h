/* kiosk.h: the four tasks of a kiosk that plays one film in a loop, and what they share.
 *
 * The times are not those of the firm's board, which are not written down: they are made up so that the loop is a plausible one. That frames are
 * lost follows from the fault; how many follows from LOG_WORK, which was chosen so that they are the eleven of the story. */
#ifndef KIOSK_H
#define KIOSK_H

#include "nonthachak.h"

/* In ticks, where nothing else is said. */
enum {
    FRAME = 4,       /* a frame stands on the screen */
    FILM = 96,       /* frames of the film */
    BLOCK = 4,       /* frames in a block of the card */
    AHEAD = 20,      /* decoded frames that the store has room for */
    PASSES = 3,      /* of the film */
    STORE_WORK = 4,  /* the decoder's, at the film's end: to set the store to the film's start, */
    SCREEN_WORK = 1, /* and then the screen */
    LOG_WORK = 39,   /* housekeeping's, once a pass */
    LAMP_LIMIT = 20, /* housekeeping looks at the lamp */
    ALL_TICKS = FRAME * FILM * PASSES
};

enum { OUTPUT, READER, KEEPER, DECODER, WORKERS };
enum { FRAMES, SCREEN, MUTEXES };  /* mutexes: of the store of frames, of the screen */
enum { BLOCKS, ROOM };             /* semaphores: blocks read and not decoded, room in the store */
enum { BOUGHT_MUTEX = 8 };         /* the bought kernel's mutex m is semaphore BOUGHT_MUTEX + m */
enum { SIGNS };                    /* a group of flags */
enum { CARD = 1, CLOCK = 2, SYNC = 4, TURN = 8 };

extern const char *const worker_names[WORKERS];
extern const uint8_t worker_bases[WORKERS];
extern const char *const mutex_names[MUTEXES];

/* The mutexes of a kernel. */
struct kernel {
    const char *name;
    void (*create)(uint32_t mutex);
    void (*take)(uint32_t mutex);
    void (*post)(uint32_t mutex);
    uint32_t (*holder)(uint32_t mutex); /* plus 1; 0 for none */
};
extern const struct kernel this_kernel;
extern const struct kernel bought_kernel; /* wrong on purpose: bought.c */

/* What became of each frame in all passes: 1 where it was shown. */
struct screening {
    unsigned char shown[FILM * PASSES];
};

/* Runs the kiosk for all passes, and prints the calls of the first pass's turn. */
void kiosk_run(const struct kernel *kernel, struct screening *screening);

#endif
