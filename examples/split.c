/* split.c (ours): a small game for the peers' comparison, C on cc65's NES runtime.
 *
 * Reads pad 1 once per frame, walks and jumps with fixed-point speed over a
 * level in ROM, copies sprites by $4014, waits for the sprite-zero hit and
 * changes the scroll after it.  Sprites are taken from table $0000, so the hit
 * comes in each frame; in all else it is walk.c.  The game's variables stand at
 * $0700.
 *
 * Uses only what the project's machine has: 2 KiB RAM, NROM-256, pad 1,
 * no audio, official opcodes.
 */
#include <string.h>
#include <nes.h>

#define OAM_DMA (*(volatile unsigned char *)0x4014)
#define PAD1    (*(volatile unsigned char *)0x4016)

struct game {
    unsigned char frame;        /* $0700 */
    unsigned char pad;          /* $0701 */
    unsigned int x, y;          /* $0702, $0704: 1/16 pixels */
    signed char vx, vy;         /* $0706, $0707 */
    unsigned char coins;        /* $0708 */
    unsigned char won;          /* $0709 */
    unsigned char hits;         /* $070A: frames in which sprite zero was hit */
    unsigned char lag;          /* $070B: loops of the wait for the hit, low byte */
    unsigned char taken[16];    /* $070C */
};

#define g (*(struct game *)0x0700)

/* The sprite list, in cc65's picture ring, which this program does not use.
   (Indexing a constant pointer here trips cc65 2.19's optimiser, so no array.) */
#define OAM(k) (*(volatile unsigned char *)(0x0200 + (k)))

static const unsigned char floor_at[32] = {
    26, 26, 26, 26, 24, 24, 26, 26, 22, 22, 22, 30, 30, 26, 26, 20,
    20, 20, 26, 26, 30, 26, 24, 22, 20, 18, 18, 30, 30, 26, 26, 26
};

static unsigned char read_pad(void)
{
    unsigned char i, bits = 0;
    PAD1 = 1;
    PAD1 = 0;
    for (i = 0; i < 8; ++i) {
        bits >>= 1;
        if (PAD1 & 1) bits |= 0x80;
    }
    return bits;
}

static void put_row(unsigned int at, unsigned char tile, unsigned char n)
{
    PPU.vram.address = at >> 8;
    PPU.vram.address = at & 0xFF;
    while (n--) PPU.vram.data = tile;
}

static void draw_level(void)
{
    unsigned char c, r;
    PPU.control = 0x04;
    for (c = 0; c < 32; ++c) {
        PPU.vram.address = 0x20;
        PPU.vram.address = c;
        for (r = 0; r < 30; ++r)
            PPU.vram.data = r < 3 ? '#' : r >= floor_at[c] ? '+' : ' ';
    }
    PPU.control = 0;
    put_row(0x3F00, 0x0F, 1);
    put_row(0x3F01, 0x30, 31);
    put_row(0x23C0, 0, 64);
}

static void step(void)
{
    unsigned char column, ground;
    if (g.pad & 0x80) { if (g.vx < 32) g.vx += 2; }
    else if (g.pad & 0x40) { if (g.vx > -32) g.vx -= 2; }
    else if (g.vx > 0) --g.vx;
    else if (g.vx < 0) ++g.vx;
    g.x += g.vx;
    if (g.x > 250 * 16) { g.x = 0; g.vx = 0; }
    column = (unsigned char)(g.x >> 7);
    ground = floor_at[column & 31];
    if ((g.y >> 7) + 1 >= ground) {
        if (ground == 30) { g.x = 0; g.y = 20 * 128; g.vx = g.vy = 0; return; }
        if ((g.y >> 7) >= ground) { g.x -= g.vx; g.vx = 0; }
        else { g.y = (ground - 1) * 128; g.vy = 0; if (g.pad & 1) g.vy = -60; }
    } else if (g.vy < 60) g.vy += 3;
    g.y += g.vy;
    if ((column & 3) == 3 && !g.taken[column >> 1 & 15] && (g.pad & 2)) {
        g.taken[column >> 1 & 15] = 1;
        ++g.coins;
    }
    if (column >= 29 && g.coins >= 3) g.won = 1;
}

int main(void)
{
    unsigned char n;
    waitvsync();
    PPU.control = 0;
    PPU.mask = 0;
    memset(&g, 0, sizeof g);
    memset((void *)0x0200, 0xF0, 256);
    g.y = 20 * 128;
    draw_level();
    OAM(0) = 16; OAM(1) = '#'; OAM(2) = 0; OAM(3) = 40;    /* sprite zero over the bar */
    while (PPU.status & 0x80) ;
    for (;;) {
        while (!(PPU.status & 0x80)) ;
        OAM(4) = (unsigned char)(g.y >> 4); OAM(5) = '@'; OAM(6) = 1; OAM(7) = (unsigned char)(g.x >> 4);
        PPU.sprite.address = 0;
        OAM_DMA = 0x02;
        PPU.vram.address = 0;
        PPU.vram.address = 0;
        PPU.scroll = 0;
        PPU.scroll = 0;
        PPU.control = 0x00;
        PPU.mask = 0x1E;
        ++g.frame;
        g.pad = read_pad();
        step();
        while (PPU.status & 0x40) ;
        for (n = 0; n < 250; ++n)
            if (PPU.status & 0x40) break;
        g.lag = n;
        if (n < 250) ++g.hits;
        PPU.scroll = g.frame;
        PPU.scroll = 0;
    }
    return 0;
}
