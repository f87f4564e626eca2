--
-- PostgreSQL database dump
--


-- Dumped from database version 15.20 (Debian 15.20-0+deb12u1)
-- Dumped by pg_dump version 15.20 (Debian 15.20-0+deb12u1)

SET statement_timeout = 0;
SET lock_timeout = 0;
SET idle_in_transaction_session_timeout = 0;
SET client_encoding = 'UTF8';
SET standard_conforming_strings = on;
SELECT pg_catalog.set_config('search_path', '', false);
SET check_function_bodies = false;
SET xmloption = content;
SET client_min_messages = warning;
SET row_security = off;

--
-- Name: ratio; Type: EXTENSION; Schema: -; Owner: -
--

CREATE EXTENSION IF NOT EXISTS ratio WITH SCHEMA public;


--
-- Name: EXTENSION ratio; Type: COMMENT; Schema: -; Owner: -
--

COMMENT ON EXTENSION ratio IS 'exact fractions of two bigints, always in lowest terms';


SET default_tablespace = '';

SET default_table_access_method = heap;

--
-- Name: prices; Type: TABLE; Schema: public; Owner: -
--

CREATE TABLE public.prices (
    id integer NOT NULL,
    price public.ratio DEFAULT '1/3'::public.ratio NOT NULL,
    twice public.ratio GENERATED ALWAYS AS ((price OPERATOR(public.*) (2)::public.ratio)) STORED,
    CONSTRAINT prices_price_check CHECK ((price OPERATOR(public.<>) '1/7'::public.ratio))
);


--
-- Name: dearest(); Type: FUNCTION; Schema: public; Owner: -
--

CREATE FUNCTION public.dearest() RETURNS public.ratio
    LANGUAGE sql STABLE
    BEGIN ATOMIC
 SELECT public.max(prices.price) AS max
    FROM public.prices;
END;


--
-- Name: months; Type: TABLE; Schema: public; Owner: -
--

CREATE TABLE public.months (
    month integer NOT NULL,
    costs public.ratio_total
);


--
-- Name: parts; Type: TABLE; Schema: public; Owner: -
--

CREATE TABLE public.parts (
    r public.ratio
)
PARTITION BY HASH (r);


--
-- Name: parts0; Type: TABLE; Schema: public; Owner: -
--

CREATE TABLE public.parts0 (
    r public.ratio
);


--
-- Name: parts1; Type: TABLE; Schema: public; Owner: -
--

CREATE TABLE public.parts1 (
    r public.ratio
);


--
-- Name: parts2; Type: TABLE; Schema: public; Owner: -
--

CREATE TABLE public.parts2 (
    r public.ratio
);


--
-- Name: reads; Type: VIEW; Schema: public; Owner: -
--

CREATE VIEW public.reads AS
 SELECT months.month,
    public.ratio_round(months.costs, 20) AS rounded,
    (months.costs)::numeric(10,4) AS number,
    (months.costs OPERATOR(public.>) '{1; 1/2}'::public.ratio_total) AS above
   FROM public.months;


--
-- Name: sums; Type: VIEW; Schema: public; Owner: -
--

CREATE VIEW public.sums AS
 SELECT (prices.id % 3) AS third,
    public.sum(prices.price) AS sum,
    public.avg(prices.price) AS avg,
    public.total(prices.price) AS total,
    public.min(prices.price) AS min,
    public.max(prices.price) AS max,
    count(*) FILTER (WHERE ((prices.price OPERATOR(public.>=) '-1'::public.ratio) AND (prices.price OPERATOR(public.<=) '1'::public.ratio))) AS small
   FROM public.prices
  WHERE (prices.id <= 60)
  GROUP BY (prices.id % 3);


--
-- Name: whole; Type: MATERIALIZED VIEW; Schema: public; Owner: -
--

CREATE MATERIALIZED VIEW public.whole AS
 SELECT public.sum(months.costs) AS costs
   FROM public.months
  WITH NO DATA;


--
-- Name: parts0; Type: TABLE ATTACH; Schema: public; Owner: -
--

ALTER TABLE ONLY public.parts ATTACH PARTITION public.parts0 FOR VALUES WITH (modulus 3, remainder 0);


--
-- Name: parts1; Type: TABLE ATTACH; Schema: public; Owner: -
--

ALTER TABLE ONLY public.parts ATTACH PARTITION public.parts1 FOR VALUES WITH (modulus 3, remainder 1);


--
-- Name: parts2; Type: TABLE ATTACH; Schema: public; Owner: -
--

ALTER TABLE ONLY public.parts ATTACH PARTITION public.parts2 FOR VALUES WITH (modulus 3, remainder 2);


--
-- Data for Name: months; Type: TABLE DATA; Schema: public; Owner: -
--

COPY public.months (month, costs) FROM stdin;
11	{16; 1/10, 1/22, 1/34, 1/46, 1/58, 1/70, 1/82, 1/94, 1/106, 1/118, 1/130, 1/142, 1/154, 1/166, 1/178, 1/190}
9	{17; 1/8, 1/20, 1/32, 1/44, 1/56, 1/68, 1/80, 1/92, 1/104, 1/116, 1/128, 1/140, 1/152, 1/164, 1/176, 1/188, 1/200}
3	{17; 1/2, 1/14, 1/26, 1/38, 1/50, 1/62, 1/74, 1/86, 1/98, 1/110, 1/122, 1/134, 1/146, 1/158, 1/170, 1/182, 1/194}
5	{17; 1/4, 1/16, 1/28, 1/40, 1/52, 1/64, 1/76, 1/88, 1/100, 1/112, 1/124, 1/136, 1/148, 1/160, 1/172, 1/184, 1/196}
4	{17; 1/3, 1/15, 1/27, 1/39, 1/51, 1/63, 1/75, 1/87, 1/99, 1/111, 1/123, 1/135, 1/147, 1/159, 1/171, 1/183, 1/195}
10	{16; 1/9, 1/21, 1/33, 1/45, 1/57, 1/69, 1/81, 1/93, 1/105, 1/117, 1/129, 1/141, 1/153, 1/165, 1/177, 1/189}
6	{17; 1/5, 1/17, 1/29, 1/41, 1/53, 1/65, 1/77, 1/89, 1/101, 1/113, 1/125, 1/137, 1/149, 1/161, 1/173, 1/185, 1/197}
2	{17; 1, 1/13, 1/25, 1/37, 1/49, 1/61, 1/73, 1/85, 1/97, 1/109, 1/121, 1/133, 1/145, 1/157, 1/169, 1/181, 1/193}
7	{17; 1/6, 1/18, 1/30, 1/42, 1/54, 1/66, 1/78, 1/90, 1/102, 1/114, 1/126, 1/138, 1/150, 1/162, 1/174, 1/186, 1/198}
12	{16; 1/11, 1/23, 1/35, 1/47, 1/59, 1/71, 1/83, 1/95, 1/107, 1/119, 1/131, 1/143, 1/155, 1/167, 1/179, 1/191}
1	{16; 1/12, 1/24, 1/36, 1/48, 1/60, 1/72, 1/84, 1/96, 1/108, 1/120, 1/132, 1/144, 1/156, 1/168, 1/180, 1/192}
8	{17; 1/7, 1/19, 1/31, 1/43, 1/55, 1/67, 1/79, 1/91, 1/103, 1/115, 1/127, 1/139, 1/151, 1/163, 1/175, 1/187, 1/199}
\.


--
-- Data for Name: parts0; Type: TABLE DATA; Schema: public; Owner: -
--

COPY public.parts0 (r) FROM stdin;
-9/2
-25/9
-19/7
11/4
-38/9
-4/3
2
47/4
14/3
31/11
-26/5
-45/7
18/11
1/3
43/7
5/11
-4611686018427387904
-4611686018427387904/9223372036854775807
\.


--
-- Data for Name: parts1; Type: TABLE DATA; Schema: public; Owner: -
--

COPY public.parts1 (r) FROM stdin;
-7
13/5
-47/6
-6/7
-11
19/3
-41/4
25
-13/5
-32/7
9/8
-1
12
-7/3
5/2
-1/2
-7/2
-1
-20/3
-17/8
-18/5
23/6
4611686018427387903/9223372036854775807
\.


--
-- Data for Name: parts2; Type: TABLE DATA; Schema: public; Owner: -
--

COPY public.parts2 (r) FROM stdin;
32/3
35/8
8/5
-4
-1/4
38
0
41/6
3/10
4
-35/2
50/9
-29/12
-24
17/2
37/9
-23/10
20
21/4
-39/5
8/3
-14
1/9223372036854775807
0
\.


--
-- Data for Name: prices; Type: TABLE DATA; Schema: public; Owner: -
--

COPY public.prices (id, price) FROM stdin;
1	-9/2
2	32/3
3	-7
4	13/5
5	-47/6
6	-6/7
7	35/8
8	-25/9
9	8/5
10	-4
11	-1/4
12	38
13	-11
14	19/3
15	-41/4
16	0
17	41/6
18	-19/7
19	11/4
20	-38/9
21	3/10
22	4
23	-4/3
24	25
25	-35/2
26	2
27	47/4
28	-13/5
29	14/3
30	-32/7
31	9/8
32	50/9
33	-1
34	31/11
35	-29/12
36	12
37	-24
38	-7/3
39	17/2
40	-26/5
41	5/2
42	-45/7
43	-1/2
44	37/9
45	-23/10
46	18/11
47	-7/2
48	-1
49	20
50	-20/3
51	21/4
52	-39/5
53	1/3
54	43/7
55	-17/8
56	8/3
57	-18/5
58	5/11
59	23/6
60	-14
61	4611686018427387903/9223372036854775807
62	-4611686018427387904
63	1/9223372036854775807
64	0
65	-4611686018427387904/9223372036854775807
\.


--
-- Name: months months_costs_key; Type: CONSTRAINT; Schema: public; Owner: -
--

ALTER TABLE ONLY public.months
    ADD CONSTRAINT months_costs_key UNIQUE (costs);


--
-- Name: months months_pkey; Type: CONSTRAINT; Schema: public; Owner: -
--

ALTER TABLE ONLY public.months
    ADD CONSTRAINT months_pkey PRIMARY KEY (month);


--
-- Name: prices prices_pkey; Type: CONSTRAINT; Schema: public; Owner: -
--

ALTER TABLE ONLY public.prices
    ADD CONSTRAINT prices_pkey PRIMARY KEY (id);


--
-- Name: prices_btree; Type: INDEX; Schema: public; Owner: -
--

CREATE INDEX prices_btree ON public.prices USING btree (price);


--
-- Name: prices_down; Type: INDEX; Schema: public; Owner: -
--

CREATE INDEX prices_down ON public.prices USING btree (price DESC) WHERE (price OPERATOR(public.>) '1/2'::public.ratio);


--
-- Name: prices_hash; Type: INDEX; Schema: public; Owner: -
--

CREATE INDEX prices_hash ON public.prices USING hash (price);


--
-- Name: prices_twice; Type: INDEX; Schema: public; Owner: -
--

CREATE INDEX prices_twice ON public.prices USING btree (((price OPERATOR(public.*) (2)::public.ratio)));


--
-- Name: whole; Type: MATERIALIZED VIEW DATA; Schema: public; Owner: -
--

REFRESH MATERIALIZED VIEW public.whole;


--
-- PostgreSQL database dump complete
--


