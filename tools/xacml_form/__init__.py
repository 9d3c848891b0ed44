"""What tools/xacml.py is made of: documents, requests and responses of XACML 3.0 in XML, and in the JSON of the
service."""
