       01  CUST.
           05  CUST-NO       PIC 9(4).
           05  STATUS-CODE   PIC X(2).
               88  ACTIVE    VALUES "AC" "RE".
               88  BLOCKED   VALUE "BL".
           05  CREDIT-LIMIT  PIC 9(5) COMP-3.
