class Order {
  static int last;

  static int next() {
    last = last + 1;
    return last;
  }

  //@ requires first < second;
  static int between(int first, int second) { return second - first; }

  public static void main(String[] args) {
    System.out.println(next() - next());
    System.out.println(last + next() + last);
    System.out.println(between(next(), next()));
  }
}
