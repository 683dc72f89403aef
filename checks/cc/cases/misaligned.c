int main(void) {
    char room[8];
    *(short *) (room + 3) = 5;
    return room[4];
}
