       01  IN-REC.
           05 CUST-NUMBER PIC 9(10).
           05 CUST-KIND PIC X.
           05 CUST-NAME PIC X(40).
           05 CUST-ADDRESS.
               10 STREET PIC X(30).
               10 CITY PIC X(25).
               10 POSTCODE PIC X(10).
               10 COUNTRY PIC X(2).
           05 BORN-ON PIC 9(8).
           05 JOINED-ON.
               10 JOINED-YEAR PIC 9(4).
               10 JOINED-MONTH PIC 9(2).
               10 JOINED-DAY PIC 9(2).
           05 PHONE PIC X(16).
           05 BALANCE PIC S9(11)V99 COMP-3.
           05 CREDIT-LIMIT PIC S9(9)V99 COMP-3.
           05 OVERDUE PIC S9(9)V99.
           05 ORDERS PIC S9(9) COMP.
           05 LAST-ORDER PIC 9(12).
           05 DISCOUNT PIC 9(2)V9(3) COMP-3.
           05 BRANCH PIC 9(4).
           05 REGION PIC X(3).
           05 QUARTER OCCURS 4.
               10 TURNOVER PIC S9(11)V99 COMP-3.
           05 LETTER-KIND PIC X(4).
