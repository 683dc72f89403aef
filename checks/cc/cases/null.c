struct pair { int first, second; };
static struct pair *nothing(void) { return 0; }
int main(void) {
    nothing()->second = 5;
    return 0;
}
