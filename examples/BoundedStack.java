class BoundedStack {
  private int[] items;
  private int size;

  //@ invariant 0 <= size && size <= items.length;

  BoundedStack(int capacity) { items = new int[capacity]; }

  // off by one: a stack is full where size is items.length
  boolean isFull() { return size > items.length; }

  //@ requires size < items.length;
  //@ ensures size > 0 && items[size - 1] == value;
  void push(int value) {
    items[size] = value;
    size++;
  }

  public static void main(String[] args) {
    BoundedStack stack = new BoundedStack(2);
    for (int i = 1; i <= 3; i++) {
      if (!stack.isFull()) stack.push(i);
    }
  }
}
