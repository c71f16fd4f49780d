       01  INVOICE.
           COPY AMOUNT.
