/* Numbers in decimal, exactly. Nothing here divides by ten: a digit is found by subtraction, which costs a few
   statements, and not the hundred of a division. */
#include "decimal.h"
#include <string.h>

const uint32_t _powers_of_ten[LIMB_DIGITS] = {
    100000000, 10000000, 1000000, 100000, 10000, 1000, 100, 10, 1,
};

#define MOST_HALVINGS 9         /* 2^9 divides a limb's base */
#define MOST_DOUBLINGS 2        /* four limbs and a carry fit a word */

static void trim(struct decimal *number) {
    while (number->past > number->first && number->limb[number->past - 1] == 0)
        number->past--;
    while (number->past > number->first && number->limb[number->first] == 0)
        number->first++;
}

void _decimal_of_integer(struct decimal *number, uint64_t value) {
    memset(number, 0, sizeof *number);
    number->first = WHOLE_LIMBS - 3;
    number->past = WHOLE_LIMBS;
    if (value >> 32) {
        uint64_t upper = value / LIMB;
        number->limb[WHOLE_LIMBS - 1] = value - upper * LIMB;
        number->limb[WHOLE_LIMBS - 2] = upper % LIMB;
        number->limb[WHOLE_LIMBS - 3] = upper / LIMB;
    } else {
        uint32_t rest = value;
        for (; rest >= LIMB; rest -= LIMB)
            number->limb[WHOLE_LIMBS - 2]++;
        number->limb[WHOLE_LIMBS - 1] = rest;
    }
    trim(number);
}

static void twice(struct decimal *number, int times) {
    uint32_t carry = 0;
    for (int i = number->past - 1; i >= number->first; i--) {
        uint32_t limb = (number->limb[i] << times) + carry;
        for (carry = 0; limb >= LIMB; carry++)
            limb -= LIMB;
        number->limb[i] = limb;
    }
    if (carry && number->first > 0)
        number->limb[--number->first] = carry;
    trim(number);
}

static void half(struct decimal *number, int times) {
    uint32_t below = (1u << times) - 1, unit = LIMB >> times, carry = 0;
    for (int i = number->first; i < number->past; i++) {
        uint32_t limb = number->limb[i];
        number->limb[i] = (limb >> times) + carry;
        carry = (limb & below) * unit;
    }
    if (carry && number->past < ALL_LIMBS)
        number->limb[number->past++] = carry;
    else if (carry)
        number->limb[ALL_LIMBS - 1] |= 1;
    trim(number);
}

#define LARGE_POWER 32          /* of which multiples are in a table */
#define FACTOR_LIMBS 4          /* of a number that is multiplied by one of them: so many products of limbs fit a sum */

/* Where the limbs of 2^32, 2^64 .. 2^960 begin, and where the last ones end. */
static const uint16_t large_start[] = {
    0, 2, 5, 9, 14, 20, 27, 35, 44, 54, 65, 77, 90, 104, 119, 136, 154, 173, 193, 214, 236, 259, 283, 308, 334, 361, 389, 418,
    448, 480, 513,
};
#define LARGE_POWERS (int) (sizeof large_start / sizeof *large_start - 1)

static const uint32_t large_limbs[] = {
    4, 294967296, 18, 446744073, 709551616, 79, 228162514, 264337593, 543950336, 340, 282366920, 938463463, 374607431,
    768211456, 1461, 501637330, 902918203, 684832716, 283019655, 932542976, 6277, 101735386, 680763835, 789423207, 666416102,
    355444464, 34512896, 26959, 946667150, 639794667, 15087019, 630673637, 144422540, 572481103, 610249216, 115792, 89237316,
    195423570, 985008687, 907853269, 984665640, 564039457, 584007913, 129639936, 497323, 236409786, 642155382, 248146820,
    840100456, 150797347, 717440463, 976893159, 497012533, 375533056, 2135987, 35920910, 82395021, 706169552, 114602704,
    522356652, 769947041, 607822219, 725780640, 550022962, 86936576, 9173994, 463960286, 46443283, 581208347, 763186259,
    956673124, 494950355, 357547691, 504353939, 232280074, 212440502, 746218496, 39402006, 196394479, 212279040, 100143613,
    805079739, 270465446, 667948293, 404245721, 771497210, 611414266, 254884915, 640806627, 990306816, 169230328, 10303641,
    331690318, 856389386, 196071598, 838855992, 136870091, 590247882, 556495704, 531248437, 872567112, 920983350, 278405979,
    725889536, 726838724, 295606890, 549323807, 888004534, 353641360, 687318060, 281490199, 180639288, 113397923, 326191050,
    713763565, 560762521, 606266177, 933534601, 628614656, 3, 121748550, 315992231, 381597229, 793166305, 748598142, 664971150,
    859156959, 625371738, 819765620, 120306103, 63491971, 159826931, 121406622, 895447975, 679288285, 306290176, 13, 407807929,
    942597099, 574024998, 205846127, 479365820, 592393377, 723561443, 721764030, 73546976, 801874298, 166903427, 690031858,
    186486050, 853753882, 811946569, 946433649, 6084096, 57, 586096570, 152913699, 974892898, 380567793, 532123114, 264532903,
    689671329, 431521032, 595044740, 83720782, 129802971, 518987656, 109067457, 577065805, 510327036, 19308994, 315074097,
    345724416, 247, 330401473, 104534060, 502521019, 647190035, 131349101, 211839914, 63056092, 897225106, 531867170, 316401061,
    243044989, 597671426, 16139339, 351365034, 306751209, 967546155, 101893167, 916606772, 148699136, 1062, 275985633,
    534197379, 176413104, 937254659, 186235454, 63846398, 888276400, 807119721, 704485478, 325004530, 458571337, 778658972,
    493002030, 693158675, 305414478, 819039957, 533174703, 887662541, 670786438, 63456256, 4562, 440617622, 195218641,
    171605700, 291324893, 228507248, 559930579, 192517899, 275167208, 677386505, 912811317, 371399778, 642309573, 594407310,
    688704721, 375437998, 252661319, 722214188, 251994674, 360264950, 82874192, 246603776, 19595, 533242629, 369747791,
    401605606, 558418088, 927130487, 463844933, 662202465, 281465266, 200982457, 647235235, 528838735, 10358900, 495684567,
    911298014, 908298340, 170885513, 171109743, 249504533, 143507682, 501017145, 381579984, 990109696, 84162, 174424773,
    976115855, 838126082, 58648805, 436845170, 781751972, 494449099, 714468753, 293153818, 664580441, 415219631, 727501698,
    851483408, 310916002, 940861810, 45036330, 430093599, 283578738, 55113571, 66620126, 149163476, 340692027, 772502016,
    361473, 786714651, 839609485, 931802192, 366508973, 300717001, 923159475, 447150424, 810286233, 407987951, 861887389,
    439612274, 926783780, 351561999, 781998832, 434041296, 198795326, 329101623, 141899709, 787663433, 296905279, 66051548,
    640942013, 290819886, 814068736, 1552518, 92300708, 935148979, 488462502, 555256886, 17116696, 611139052, 38026050,
    952686376, 886330878, 408828646, 477950487, 730697131, 73206171, 580044114, 814391444, 287275041, 181139204, 454976020,
    849905550, 265285631, 598444825, 262999193, 716468750, 892846853, 816057856, 6668014, 432879854, 274079851, 790721257,
    797144758, 322315908, 160396257, 811764037, 237817632, 71521432, 200871554, 290742929, 910593433, 240445888, 801654119,
    365080363, 356052330, 830046095, 157579514, 14558463, 78285911, 814024728, 965016135, 886601981, 690748037, 476461291,
    163877376, 28638903, 918474961, 204418783, 933674838, 490721739, 172170652, 529441449, 702311064, 5352904, 159345284,
    265824628, 375429359, 509218999, 720074396, 860757073, 376700445, 26041564, 579620512, 874307979, 212102266, 801261478,
    978776245, 40008231, 745247475, 930553606, 737583615, 358787106, 474295296, 123003155, 723136208, 567847447, 683223664,
    415731869, 180715065, 944930703, 618254955, 521953492, 303010368, 693540149, 343822709, 50322214, 299552689, 203876695,
    953600699, 775494388, 206142090, 885899729, 347827083, 318884583, 758435450, 548517566, 916626912, 548274908, 112766882,
    31433928, 533568160, 966639616, 528294531, 135665246, 352339784, 916516606, 518847326, 36121522, 127960709, 26673902,
    556724859, 474417255, 887657187, 894674394, 993257128, 678882347, 559502685, 537250538, 978462939, 576908386, 683999005,
    84168731, 517676426, 441053024, 232908211, 188404148, 28292751, 561738838, 396898767, 36476489, 538580897, 737998336, 2,
    269007733, 883335972, 287082669, 296112915, 239349672, 942191252, 221331572, 442536403, 137824056, 312817862, 695551072,
    66953619, 64625508, 194663368, 599769448, 406663254, 670871573, 830845597, 595897613, 333042429, 214224697, 474472410,
    882236254, 24057110, 212260250, 671521235, 807709272, 244389361, 641091086, 35023229, 622419456, 9, 745314011, 399999080,
    353382387, 875188310, 876226857, 595007526, 867906457, 212948690, 766426102, 465615065, 882010259, 225304916, 231408668,
    183459169, 865203094, 46577987, 296312653, 419531277, 699956473, 29870789, 655490053, 648352799, 593479218, 378873685,
    597925394, 874945746, 363615468, 965612827, 738803104, 277547081, 828589991, 914110976,
};

/* 10^9 times a number, modulo 2^32, by shifts and sums: these cost less than a product. */
static uint32_t times_limb(uint32_t x) {
    for (int i = 0; i < LIMB_DIGITS; i++)
        x += x << 2;
    return x << LIMB_DIGITS;
}

/* Takes the lowest limb from a sum below 3.2 * 10^18. The quotient is found from a part of 2^30 and 2^30 / 10^9 - 1, in binary
   2^-4 + 2^-7 + 2^-9 + 2^-10 + 2^-11 + 2^-17 + 2^-18 - 2^-23 + 2^-25, of it; it may be too small by three. */
static uint32_t take_limb(uint64_t *sum) {
    uint32_t upper = *sum >> 30, x = upper >> 1, more = x + (x >> 1) - (x >> 6) + (x >> 8);
    more = x + (more >> 6);
    more = x + (more >> 1);
    more = x + (more >> 1);
    more = x + (more >> 2);
    more = x + (more >> 3);
    uint32_t quotient = upper + (more >> 3), limb = (uint32_t) *sum - times_limb(quotient);
    for (; limb >= LIMB; quotient++)
        limb -= LIMB;
    *sum = quotient;
    return limb;
}

/* Times 2^(32 * large), of a number of few limbs. */
static void multiply(struct decimal *number, int large) {
    const uint32_t *factor = large_limbs + large_start[large] - 1;      /* its last limb */
    uint32_t from[FACTOR_LIMBS];
    int count = large_start[large] - large_start[large - 1], limbs = number->past - number->first, last = number->past - 1;
    uint64_t sum = 0;
    for (int i = 0; i < limbs; i++)
        from[i] = number->limb[last - i];
    for (int place = 0; place < limbs + count; place++) {
        int i = place < count ? 0 : place - count + 1, past = place < limbs ? place + 1 : limbs;
        for (; i < past; i++)
            sum += (uint64_t) from[i] * factor[i - place];
        number->limb[last - place] = take_limb(&sum);
    }
    number->first = last - (limbs + count - 1);
    trim(number);
}

void _decimal_scale(struct decimal *number, int exponent) {
    int large = exponent / LARGE_POWER, is_large = large > 0 && large <= LARGE_POWERS && number->past - number->first <= FACTOR_LIMBS / 2;
    if (is_large)
        exponent -= large * LARGE_POWER;
    for (; exponent >= MOST_DOUBLINGS; exponent -= MOST_DOUBLINGS)
        twice(number, MOST_DOUBLINGS);
    if (exponent > 0)
        twice(number, exponent);
    for (; exponent <= -MOST_HALVINGS; exponent += MOST_HALVINGS)
        half(number, MOST_HALVINGS);
    if (exponent < 0)
        half(number, -exponent);
    if (is_large)
        multiply(number, large);
}

/* Whether the limbs from `index` on are all 0. */
static int is_zero_from(const struct decimal *number, int index) {
    return index >= number->past;
}

static void add_at(struct decimal *number, int index, uint32_t amount) {
    number->limb[index] += amount;
    while (number->limb[index] >= LIMB) {
        number->limb[index] -= LIMB;
        number->limb[--index]++;
    }
    if (index < number->first)
        number->first = index;
}

/* Takes away all from `index` on, and leaves the value in `limb` there. */
static void cut(struct decimal *number, int index, uint32_t limb) {
    for (int i = index; i < number->past; i++)
        number->limb[i] = 0;
    number->limb[index] = limb;
    if (number->past > index + 1)
        number->past = index + 1;
    if (number->first > index)
        number->first = index;
    if (number->past <= index)
        number->past = index + 1;
}

/* What stands behind the first `digits` digits of a limb; tells the last of them, where there are any. */
static uint32_t rest_behind(uint32_t limb, int digits, uint32_t *last) {
    for (int i = 0; i < digits; i++)
        for (*last = 0; limb >= _powers_of_ten[i]; ++*last)
            limb -= _powers_of_ten[i];
    return limb;
}

void _decimal_round(struct decimal *number, int places) {
    int position = places + LIMB_DIGITS * WHOLE_LIMBS;      /* digits that stay, from limb 0 on */
    int index = position / LIMB_DIGITS, digits = position % LIMB_DIGITS;
    if (position < 0 || index >= number->past)
        return;
    uint32_t unit = digits ? _powers_of_ten[digits - 1] : LIMB, last = index ? number->limb[index - 1] : 0;
    uint32_t limb = rest_behind(number->limb[index], digits, &last);
    int goes_up = limb > unit / 2 || (limb == unit / 2 && (last & 1 || !is_zero_from(number, index + 1)));
    cut(number, index, number->limb[index] - limb);
    if (goes_up) {
        if (digits)
            add_at(number, index, unit);
        else
            add_at(number, index - 1, 1);
    }
    trim(number);
}

void _limb_digits(uint32_t limb, char *to) {
    for (int i = 0; i < LIMB_DIGITS; i++) {
        uint32_t power = _powers_of_ten[i];
        int digit = '0';
        if (limb >= power << 3) {
            limb -= power << 3;
            digit += 8;
        }
        if (limb >= power << 2) {
            limb -= power << 2;
            digit += 4;
        }
        if (limb >= power << 1) {
            limb -= power << 1;
            digit += 2;
        }
        if (limb >= power) {
            limb -= power;
            digit++;
        }
        to[i] = digit;
    }
}

int _decimal_digits(const struct decimal *number) {
    if (number->first == number->past)
        return 1;
    uint32_t limb = number->limb[number->first];
    int digits = LIMB_DIGITS * (WHOLE_LIMBS - number->first);
    for (const uint32_t *power = _powers_of_ten; *power > limb; power++)
        digits--;
    return digits;
}
