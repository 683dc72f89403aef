/* Moves of chess: of each position of the input, how many ways there are to move 1, 2 .. times, with all rules: castling, taking
   in passing, promotion, and no king left in check. A line has a depth and a position in the notation of Forsyth and Edwards.
   The board has sixteen columns, of which eight are no squares, so that a step over the edge is seen. */
#include <ctype.h>
#include <stdio.h>
#include <stdlib.h>
#include <string.h>

enum piece { EMPTY, PAWN, KNIGHT, KING, BISHOP, ROOK, QUEEN, BLACK = 8 };

#define KIND 7
#define OUTSIDE 0x88
#define NONE 0x7f
#define MOST_MOVES 256
#define MAY_CASTLE_SHORT 1          /* of white; of black they are shifted by 2 */
#define MAY_CASTLE_LONG 2

struct position {
    unsigned char board[128];
    int mover;                      /* 0 or BLACK */
    int castling, passing;          /* passing: the square that a pawn went over, or NONE */
    int kings[2];
};

struct move {
    unsigned char from, to, promoted, is_special;   /* special: castling, or taken in passing */
};

static const signed char steps[] = {-15, -17, 15, 17, -16, -1, 1, 16}, leaps[] = {-33, -31, -18, -14, 14, 18, 31, 33};
static const char letters[] = ".PNKBRQ..pnkbrq.";
static long taken, castled, promoted;

/* Whether a piece of the side attacks the square. */
static int is_attacked(const struct position *at, int square, int side) {
    const unsigned char *board = at->board;
    int forward = side ? 16 : -16;
    for (int i = 0; i < 8; i++) {
        int from = square + leaps[i];
        if (!(from & OUTSIDE) && board[from] == (KNIGHT | side))
            return 1;
    }
    for (int sideways = -1; sideways <= 1; sideways += 2) {
        int from = square - forward + sideways;
        if (!(from & OUTSIDE) && board[from] == (PAWN | side))
            return 1;
    }
    for (int i = 0; i < 8; i++) {
        int from = square + steps[i], is_near = 1;
        while (!(from & OUTSIDE) && !board[from]) {
            from += steps[i];
            is_near = 0;
        }
        if (from & OUTSIDE || (board[from] & BLACK) != side)
            continue;
        int kind = board[from] & KIND;
        if (kind == QUEEN || kind == (i < 4 ? BISHOP : ROOK) || (kind == KING && is_near))
            return 1;
    }
    return 0;
}

static struct move *add_pawn(struct move *moves, int from, int to, int is_special) {
    if ((to & 0x70) != 0 && (to & 0x70) != 0x70) {
        *moves++ = (struct move){from, to, 0, is_special};
        return moves;
    }
    static const unsigned char kinds[] = {QUEEN, ROOK, BISHOP, KNIGHT};
    for (int i = 0; i < 4; i++)
        *moves++ = (struct move){from, to, kinds[i], 0};
    return moves;
}

static struct move *add_pawns_moves(const struct position *at, int from, struct move *moves) {
    int forward = at->mover ? 16 : -16, to = from + forward, first = at->mover ? 0x10 : 0x60;
    if (!at->board[to]) {
        moves = add_pawn(moves, from, to, 0);
        if ((from & 0x70) == first && !at->board[to + forward])
            *moves++ = (struct move){from, to + forward, 0, 0};
    }
    for (int sideways = -1; sideways <= 1; sideways += 2) {
        int aside = to + sideways;
        if (aside & OUTSIDE)
            continue;
        if (aside == at->passing || (at->board[aside] && (at->board[aside] & BLACK) != at->mover))
            moves = add_pawn(moves, from, aside, aside == at->passing);
    }
    return moves;
}

static struct move *add_castling(const struct position *at, int from, struct move *moves) {
    int may = at->mover ? at->castling >> 2 : at->castling, other = at->mover ^ BLACK;
    if (!(may & 3) || is_attacked(at, from, other))
        return moves;
    const unsigned char *king = at->board + from;
    if (may & MAY_CASTLE_SHORT && !king[1] && !king[2] && !is_attacked(at, from + 1, other))
        *moves++ = (struct move){from, from + 2, 0, 1};
    if (may & MAY_CASTLE_LONG && !king[-1] && !king[-2] && !king[-3] && !is_attacked(at, from - 1, other))
        *moves++ = (struct move){from, from - 2, 0, 1};
    return moves;
}

static struct move *add_moves(const struct position *at, int from, struct move *moves) {
    int kind = at->board[from] & KIND;
    if (kind == PAWN)
        return add_pawns_moves(at, from, moves);
    const signed char *ways = kind == KNIGHT ? leaps : kind == ROOK ? steps + 4 : steps;
    int count = kind == ROOK || kind == BISHOP ? 4 : 8, is_far = kind >= BISHOP;
    for (int i = 0; i < count; i++)
        for (int to = from + ways[i]; !(to & OUTSIDE); to += ways[i]) {
            int there = at->board[to];
            if (there && (there & BLACK) == at->mover)
                break;
            *moves++ = (struct move){from, to, 0, 0};
            if (there || !is_far)
                break;
        }
    return kind == KING ? add_castling(at, from, moves) : moves;
}

static int rights_of(int square) {
    switch (square) {
    case 0x77: return MAY_CASTLE_SHORT;
    case 0x70: return MAY_CASTLE_LONG;
    case 0x74: return MAY_CASTLE_SHORT | MAY_CASTLE_LONG;
    case 0x07: return MAY_CASTLE_SHORT << 2;
    case 0x00: return MAY_CASTLE_LONG << 2;
    case 0x04: return (MAY_CASTLE_SHORT | MAY_CASTLE_LONG) << 2;
    default: return 0;
    }
}

static void make(struct position *at, const struct move *move) {
    int piece = at->board[move->from], from = move->from, to = move->to;
    at->board[from] = EMPTY;
    at->board[to] = move->promoted ? move->promoted | at->mover : piece;
    at->passing = NONE;
    if ((piece & KIND) == KING) {
        at->kings[at->mover != 0] = to;
        if (move->is_special) {
            int corner = to > from ? from + 3 : from - 4;
            at->board[(from + to) / 2] = at->board[corner];
            at->board[corner] = EMPTY;
        }
    } else if ((piece & KIND) == PAWN) {
        if (move->is_special)
            at->board[(from & 0x70) | (to & 7)] = EMPTY;
        if (to - from == 32 || from - to == 32)
            at->passing = (from + to) / 2;
    }
    at->castling &= ~(rights_of(from) | rights_of(to));
    at->mover ^= BLACK;
}

static void count_kinds(const struct position *at, const struct move *move) {
    int is_king = (at->board[move->from] & KIND) == KING;
    taken += at->board[move->to] != EMPTY || (move->is_special && !is_king);
    castled += move->is_special && is_king;
    promoted += move->promoted != 0;
}

static long perft(const struct position *at, int depth) {
    struct move moves[MOST_MOVES], *end = moves;
    long nodes = 0;
    for (int square = 0; square < 128; square = (square + 9) & ~8)
        if (at->board[square] && (at->board[square] & BLACK) == at->mover)
            end = add_moves(at, square, end);
    for (const struct move *move = moves; move < end; move++) {
        struct position next = *at;
        make(&next, move);
        if (is_attacked(&next, next.kings[at->mover != 0], next.mover))
            continue;
        if (depth == 1) {
            nodes++;
            count_kinds(at, move);
        } else {
            nodes += perft(&next, depth - 1);
        }
    }
    return nodes;
}

static int read_position(struct position *at, const char *text) {
    static const char rights[] = "KQkq";
    int square = 0;
    char mover, castling[5], passing[3];
    memset(at, 0, sizeof *at);
    for (; *text && *text != ' '; text++) {
        const char *letter = strchr(letters, *text);
        if (*text == '/')
            square = (square | 15) + 1;
        else if (isdigit((unsigned char) *text))
            square += *text - '0';
        else if (!letter || square & OUTSIDE)
            return 0;
        else {
            at->board[square] = letter - letters;
            if ((at->board[square] & KIND) == KING)
                at->kings[at->board[square] >> 3] = square;
            square++;
        }
    }
    if (sscanf(text, " %c %4s %2s", &mover, castling, passing) != 3)
        return 0;
    at->mover = mover == 'b' ? BLACK : 0;
    for (const char *right = castling; *right; right++)
        if (*right != '-')
            at->castling |= 1 << (strchr(rights, *right) - rights);
    at->passing = *passing == '-' ? NONE : (passing[0] - 'a') + ('8' - passing[1]) * 16;
    return 1;
}

int main(void) {
    static char line[120];
    while (fgets(line, sizeof line, stdin)) {
        struct position at;
        char *text;
        int depth = strtol(line, &text, 10);
        line[strcspn(line, "\n")] = 0;
        while (*text == ' ')
            text++;
        if (!read_position(&at, text)) {
            printf("no position: %s\n", text);
            continue;
        }
        printf("%s\n", text);
        for (int moves = 1; moves <= depth; moves++) {
            taken = castled = promoted = 0;
            long nodes = perft(&at, moves);
            printf("%d: %ld, last moves that take %ld, castle %ld, promote %ld\n", moves, nodes, taken, castled, promoted);
        }
    }
    return 0;
}
