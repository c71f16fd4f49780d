       01  LEDGER-NEW.
           05  ACCOUNT     PIC 9(6).
           05  DEBIT       PIC S9(7)V99 COMP-3.
           05  CREDIT      PIC S9(7)V99 COMP-3.
