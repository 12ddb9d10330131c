// Pays, and asks again with the same key until there is an answer. usage: Pay URL TOKEN_FILE KEY AMOUNT
using System;
using System.IO;
using System.Net.Http;
using System.Threading.Tasks;

static class Program
{
    static readonly HttpClient Client = new HttpClient { Timeout = TimeSpan.FromSeconds(300) };

    /// <summary>Returns the status of the answer, and its text.</summary>
    static async Task<(int, string)> Pay(string url, string token, string key, long amount)
    {
        while (true)
        {
            var wait = TimeSpan.FromSeconds(1);
            try
            {
                var request = new HttpRequestMessage(HttpMethod.Post, url + "/payments");
                request.Headers.Add("Authorization", "Bearer " + token);
                request.Headers.Add("Idempotency-Key", key);
                request.Content = new StringContent("{\"amount\":" + amount + "}");
                using (var answer = await Client.SendAsync(request))
                {
                    var text = await answer.Content.ReadAsStringAsync();
                    var after = answer.Headers.RetryAfter;
                    if ((int)answer.StatusCode < 500 && after == null)
                        return ((int)answer.StatusCode, text);
                    wait = after?.Delta ?? wait;
                }
            }
            catch (Exception error) when (error is HttpRequestException || error is TaskCanceledException || error is IOException)
            {
                // no answer came
            }
            await Task.Delay(wait);
        }
    }

    static int Main(string[] words)
    {
        var token = File.ReadAllText(words[1]).Trim();
        var (status, text) = Pay(words[0], token, words[2], long.Parse(words[3])).GetAwaiter().GetResult();
        var (word, code) = status == 200 ? ("paid", 0) : status == 402 ? ("not paid", 1)
            : status == 424 ? ("unclear, look at the terminal", 2) : ("refused", 3);
        Console.WriteLine($"{word}: {text.Trim()}");
        return code;
    }
}
