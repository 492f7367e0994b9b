class Account {
  static int balance = 100;

  //@ requires amount > 0;
  static void deposit(int amount) { balance = balance + amount; }

  //@ requires amount > 0;
  //@ requires amount <= balance;
  static void withdraw(int amount) { balance = balance - amount; }

  public static void main(String[] args) {
    deposit(50);
    withdraw(120);
    withdraw(40);
    System.out.println(balance);
  }
}
