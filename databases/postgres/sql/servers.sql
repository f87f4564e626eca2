-- The data of the server of databases/postgres/test and its socket are in the folder of the tests, and no table is vacuumed meanwhile.
SELECT starts_with(current_setting('unix_socket_directories'), regexp_replace(current_setting('data_directory'), 'build/instance/data$', '')) AS in_the_folder,
    current_setting('autovacuum') AS autovacuum;
-- A server that is killed while rows come in and indexes are built
\! servers/crash
-- A replica by streaming answers as its server does
\! servers/replica
