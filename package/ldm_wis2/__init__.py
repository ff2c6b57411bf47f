"""The way of products between a node and WIS 2: notifications of the WMO Information System over a broker of MQTT."""
