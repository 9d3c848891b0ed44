-- HAProxy asks the front at 127.0.0.1:8080 about a request: haproxy.cfg says what becomes of the answer.
core.register_action("check", { "http-req" }, function(txn)
	local fields = txn.http:req_get_headers()
	for _, name in ipairs({ "host", "connection", "content-length", "transfer-encoding", "expect", "upgrade" }) do
		fields[name] = nil
	end
	fields["x-forwarded-method"] = { txn.sf:method() }
	fields["x-forwarded-uri"] = { txn.sf:url() }
	local answer = core.httpclient():get({ url = "http://127.0.0.1:8080/check", headers = fields, timeout = 5000 })
	txn:set_var("txn.check", answer and answer.status or 0)
	local record = answer and answer.headers and answer.headers["privacy-record"]
	if record then
		txn:set_var("txn.record", record[0] or record[1])
	end
end)
