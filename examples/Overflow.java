class Overflow {
  static int most = 2147483647;

  // Sums wrap in clauses as they do in Java: the first of these two clauses holds whatever a and b are.
  //@ requires a + b <= most;
  //@ requires a <= most - b;
  static int add(int a, int b) { return a + b; }

  public static void main(String[] args) {
    System.out.println(add(most, 0));
    System.out.println(add(most, 1));
  }
}
