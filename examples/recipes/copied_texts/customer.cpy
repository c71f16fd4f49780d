       01  CUSTOMER.
           05  CUST-NO     PIC 9(4).
           COPY ADDR REPLACING ==:T:== BY ==HOME==.
           COPY ADDR REPLACING ==:T:== BY ==WORK==.
