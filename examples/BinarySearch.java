class BinarySearch {
  static int middle(int low, int high) {
    int middle = (low + high) / 2;
    //@ assert low <= middle && middle <= high;
    return middle;
  }

  //@ requires (\forall int i; 0 <= i && i < a.length - 1; a[i] <= a[i + 1]);
  //@ ensures \result == -1 || a[\result] == key;
  static int search(int[] a, int key) {
    int low = 0, high = a.length - 1;
    while (low <= high) {
      int at = middle(low, high);
      if (a[at] == key) return at;
      if (a[at] < key) low = at + 1;
      else high = at - 1;
    }
    return -1;
  }

  public static void main(String[] args) {
    int[] a = new int[4];
    for (int i = 0; i < a.length; i++) a[i] = 10 * i;
    System.out.println("30 stands at " + search(a, 30));
    System.out.println("25 stands at " + search(a, 25));
    System.out.println(middle(1500000000, 2000000000));
  }
}
