class Doubling {
  static int calls;

  static void once() { calls = calls + 1; }
  static void four() { once(); once(); once(); once(); }
  static void sixteen() { four(); four(); four(); four(); }
  static void many() { sixteen(); sixteen(); sixteen(); sixteen(); }
  static void more() { many(); many(); many(); many(); }
  static void most() { more(); more(); more(); more(); }
  static void endless() { most(); most(); most(); most(); }

  public static void main(String[] args) {
    most();
    System.out.println(calls);
    endless();
    endless();
    endless();
    endless();
    endless();
    endless();
    endless();
    endless();
    endless();
    endless();
    endless();
    endless();
  }
}
