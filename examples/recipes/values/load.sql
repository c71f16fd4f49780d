create table staging ("ACCOUNT-NO" text, "NAME" text, "BALANCE" text, "OPENED" text);
create table account (account_no integer primary key, name text, balance numeric(9, 2), opened date);
\copy staging from 'new.csv' (format csv, header match)
insert into account
    select "ACCOUNT-NO"::integer, rtrim("NAME"), case when "BALANCE" not like '?%' then "BALANCE"::numeric end, to_date("OPENED", 'YYYYMMDD')
    from staging;
select count(*), count(balance), sum(balance) from account;
