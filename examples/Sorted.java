class Sorted {
  private int[] items;

  //@ invariant (\forall int i; 0 <= i && i < items.length - 1; items[i] <= items[i + 1]);

  Sorted(int length) {
    items = new int[length];
    for (int i = 0; i < length; i++) items[i] = 10 * i;
  }

  void set(int at, int value) { items[at] = value; }

  int first() { return items[0]; }

  public static void main(String[] args) {
    Sorted numbers = new Sorted(4);
    numbers.set(1, 15);
    numbers.set(2, 5);
    System.out.println(numbers.first());
    numbers.set(1, 5);
  }
}
