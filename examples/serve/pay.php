<?php
// Pays, and asks again with the same key until there is an answer. usage: php pay.php URL TOKEN_FILE KEY AMOUNT
// It needs PHP 8.2 with the extension curl.

/** Returns the status of the answer, and its text. */
function pay(string $url, string $token, string $key, int $amount): array
{
    $call = curl_init("$url/payments");
    curl_setopt_array($call, [
        CURLOPT_POSTFIELDS => json_encode(['amount' => $amount]),
        CURLOPT_HTTPHEADER => ["Authorization: Bearer $token", "Idempotency-Key: $key"],
        CURLOPT_RETURNTRANSFER => true,
        CURLOPT_TIMEOUT => 300,
    ]);
    while (true) {
        $text = curl_exec($call);
        $status = curl_getinfo($call, CURLINFO_RESPONSE_CODE);
        $wait = curl_getinfo($call, CURLINFO_RETRY_AFTER);
        if ($text !== false && $status < 500 && $wait == 0) {
            return [$status, $text];
        }
        sleep($wait ?: 1);
    }
}

[, $url, $tokenFile, $key, $amount] = $argv;
[$status, $text] = pay($url, trim(file_get_contents($tokenFile)), $key, (int) $amount);
[$word, $code] = match ($status) {
    200 => ['paid', 0],
    402 => ['not paid', 1],
    424 => ['unclear, look at the terminal', 2],
    default => ['refused', 3],
};
echo "$word: ", trim($text), "\n";
exit($code);
