class Withdrawal {
  private int balance;

  //@ invariant balance >= 0;

  Withdrawal(int balance) { this.balance = balance; }

  void withdraw(int amount) {
    if (amount > balance) throw new IllegalArgumentException("overdraft");
    balance -= amount;
  }

  public static void main(String[] args) {
    Withdrawal account = new Withdrawal(100);
    try {
      account.withdraw(120);
    } catch (IllegalArgumentException e) {
      System.out.println("refused");
    }
    account.withdraw(30);
    System.out.println(account.balance);
  }
}
