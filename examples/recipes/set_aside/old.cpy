       01  LEDGER.
           05  ACCOUNT     PIC 9(4).
           05  DEBIT       PIC S9(5)V99 COMP-3.
           05  CREDIT      PIC S9(5)V99 COMP-3.
