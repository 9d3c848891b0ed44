module review-client

go 1.19
